package karzhoul.jpa.model;

import java.lang.invoke.MethodHandle;
import java.util.List;

/** Where a collection stands that the application sees otherwise than the mapping, to which it is a relation. */
abstract sealed class ShownPlace implements Place, ElementView.Maker permits ElementPlace, MapPlace {
    final Place where;

    ShownPlace(Place where) {
        this.where = where;
    }

    /**
     * What the mapping has of a collection that somebody looked at.
     *
     * @param view null where it isn't the door's
     */
    abstract Object looked(Object instance, Object held, ElementView view);

    /** A collection of the door's, as it is to stand in an instance. */
    abstract ElementView.Shown collection(Object instance, List<?> rows);

    @Override
    public final Object get(Object instance) {
        Object held = where.get(instance);
        if (held == null) {
            return null;
        }
        ElementView view = ElementView.of(held, instance);
        return view != null && !view.isLookedAt() ? view.rows() : looked(instance, held, view);
    }

    @Override
    public final void set(Object instance, Object value) {
        Object held = value == null ? null : where.get(instance);
        ElementView view = held == null ? null : ElementView.of(held, instance);
        if (view != null && held instanceof ElementView.Shown shown) {
            view.rows((List<?>) value, false);
            shown.forget();
        } else {
            where.set(instance, value == null ? null : collection(instance, (List<?>) value));
        }
    }

    @Override
    public final Object held(Object instance) {
        return where.get(instance);
    }

    @Override
    public final void hold(Object instance, Object held) {
        where.set(instance, held);
    }

    @Override
    public final boolean isOfFields() {
        return where.isOfFields();
    }

    @Override
    public final MethodHandle reader() {
        return where.reader();
    }

    @Override
    public final Object holder(Object instance) {
        return where.holder(instance);
    }
}
