package karzhoul.jpa.criteria;

import java.util.Calendar;
import java.util.Date;
import java.util.List;
import karzhoul.jpa.query.Tree;

/** A value. Dates are copied, so that the query keeps them as they were given. */
final class Constant<X> extends Term<X> {
    private final Object value;

    Constant(Object value) {
        this(value == null ? Object.class : value.getClass(), value);
    }

    Constant(Class<?> type, Object value) {
        super(type);
        this.value = value instanceof Date date ? date.clone() : value instanceof Calendar time ? time.clone() : value;
    }

    Object value() {
        return value;
    }

    @Override
    Tree.Value write(Writing to) {
        return to.constant(value);
    }

    @Override
    List<Term<?>> parts() {
        return List.of();
    }
}
