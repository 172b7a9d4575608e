package karzhoul.jpa.model;

import jakarta.persistence.PersistenceException;
import java.lang.invoke.MethodHandle;
import java.lang.invoke.MethodHandles;
import java.lang.invoke.MethodType;
import java.lang.reflect.Constructor;
import java.lang.reflect.Field;
import java.lang.reflect.Method;

/** Reads and writes one member of instances by method handles. */
final class Accessor {
    private static final MethodHandles.Lookup OWN = MethodHandles.lookup();
    private static final MethodType READS = MethodType.methodType(Object.class, Object.class);
    private static final MethodType WRITES = MethodType.methodType(void.class, Object.class, Object.class);
    private static final MethodType MAKES = MethodType.methodType(Object.class);

    private final MethodHandle reader;
    private final MethodHandle writer;
    private final boolean isProperty;

    private Accessor(MethodHandle reader, MethodHandle writer, boolean isProperty) {
        this.reader = reader.asType(READS);
        this.writer = writer.asType(WRITES);
        this.isProperty = isProperty;
    }

    /** @throws IllegalAccessException where the class's module doesn't open its package */
    static Accessor of(Field field) throws IllegalAccessException {
        MethodHandles.Lookup lookup = lookupIn(field.getDeclaringClass());
        return new Accessor(lookup.unreflectGetter(field), lookup.unreflectSetter(field), false);
    }

    /** @throws IllegalAccessException where the class's module doesn't open its package */
    static Accessor of(Method getter, Method setter) throws IllegalAccessException {
        MethodHandle reader = lookupIn(getter.getDeclaringClass()).unreflect(getter);
        MethodHandle writer = lookupIn(setter.getDeclaringClass()).unreflect(setter);
        return new Accessor(reader, writer, true);
    }

    /** A lookup with the rights of a class itself. */
    static MethodHandles.Lookup lookupIn(Class<?> javaClass) throws IllegalAccessException {
        Accessor.class.getModule().addReads(javaClass.getModule());
        return MethodHandles.privateLookupIn(javaClass, OWN);
    }

    /** What makes instances of a class by its constructor without parameters. */
    static MethodHandle constructor(Class<?> javaClass) throws NoSuchMethodException, IllegalAccessException {
        Constructor<?> constructor = javaClass.getDeclaredConstructor();
        return lookupIn(javaClass).unreflectConstructor(constructor).asType(MAKES);
    }

    /** Makes an instance by what {@link #constructor} gave. */
    static Object make(MethodHandle constructor) {
        try {
            return (Object) constructor.invokeExact();
        } catch (RuntimeException | Error raised) {
            throw raised;
        } catch (Throwable raised) {
            throw new PersistenceException(raised);
        }
    }

    boolean isProperty() {
        return isProperty;
    }

    /** What reads it of an instance: it takes and answers an Object. */
    MethodHandle reader() {
        return reader;
    }

    Object get(Object instance) {
        try {
            return (Object) reader.invokeExact(instance);
        } catch (RuntimeException | Error raised) {
            throw raised;
        } catch (Throwable raised) {
            throw new PersistenceException(raised);
        }
    }

    void set(Object instance, Object value) {
        try {
            writer.invokeExact(instance, value);
        } catch (RuntimeException | Error raised) {
            throw raised;
        } catch (Throwable raised) {
            throw new PersistenceException(raised);
        }
    }
}
