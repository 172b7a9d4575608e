package karzhoul.jpa.model;

import java.lang.invoke.MethodHandle;

/**
 * A place in what stands at another place.
 *
 * @param outer where the object stands that has the inner place
 * @param constructor what makes that object where there is none
 */
record Through(Place outer, MethodHandle constructor, Place inner) implements Place {
    @Override
    public Object get(Object instance) {
        Object at = outer.get(instance);
        return at == null ? null : inner.get(at);
    }

    @Override
    public boolean isOfFields() {
        return outer.isOfFields() && inner.isOfFields();
    }

    @Override
    public void set(Object instance, Object value) {
        Object at = outer.get(instance);
        if (at == null) {
            if (value == null) {
                return;
            }
            at = Accessor.make(constructor);
            outer.set(instance, at);
        }
        inner.set(at, value);
    }
}
