package karzhoul.jpa.model;

import java.lang.invoke.MethodHandle;

/** Where a value stands in an instance. */
interface Place {
    /** What stands there; null where an embeddable on the way is null. */
    Object get(Object instance);

    /** Puts a value there, and makes embeddables on the way; a null where there is none makes none. */
    void set(Object instance, Object value);

    /** What the application has there: the same, but of a collection that stands here as something else. */
    default Object held(Object instance) {
        return get(instance);
    }

    /** Puts there what the application had there. */
    default void hold(Object instance, Object held) {
        set(instance, held);
    }

    /** Whether fields alone are read for it; a getter may fail, or answer something else each time. */
    default boolean isOfFields() {
        return true;
    }

    /** What reads it of an instance, where that is a field of it; else null. */
    default MethodHandle reader() {
        return null;
    }

    /** The embeddable that has it in a field; null where none is, or where a getter may answer a copy. */
    default Object holder(Object instance) {
        return null;
    }
}
