package karzhoul.jpa.model;

import java.lang.invoke.MethodHandle;
import java.lang.invoke.MethodHandles;
import java.lang.invoke.MethodType;
import java.util.ArrayList;
import java.util.List;

/** Reads all that the fields of an instance have, by one method handle of all of them. */
final class Fields {
    private static final MethodType READS = MethodType.methodType(Object[].class, Object.class);
    private static final MethodHandle HELD = held();

    private final MethodHandle reader;

    /** @param places where the values of attributes stand, and then what relations hold: fields, and what is in them */
    Fields(List<Place> places) {
        List<MethodHandle> readers = new ArrayList<>(places.size());
        for (Place place : places) {
            MethodHandle own = place.reader();
            readers.add(own != null ? own : HELD.bindTo(place));
        }
        MethodHandle collector = MethodHandles.identity(Object[].class).asCollector(Object[].class, readers.size());
        MethodHandle all = MethodHandles.filterArguments(collector, 0, readers.toArray(MethodHandle[]::new));
        reader = MethodHandles.permuteArguments(all, READS, new int[readers.size()]);
    }

    private static MethodHandle held() {
        try {
            return MethodHandles.lookup().findVirtual(Place.class, "held", MethodType.methodType(Object.class, Object.class));
        } catch (ReflectiveOperationException e) {
            throw new IllegalStateException(e);
        }
    }

    Object[] of(Object instance) {
        try {
            return (Object[]) reader.invokeExact(instance);
        } catch (RuntimeException | Error raised) {
            throw raised;
        } catch (Throwable raised) {
            throw new IllegalStateException(raised);
        }
    }
}
