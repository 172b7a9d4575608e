package karzhoul.jpa.criteria;

import jakarta.persistence.criteria.ParameterExpression;
import java.util.List;
import karzhoul.jpa.query.Tree;

/** A parameter, of a name or of none (chapter 6.5.13). */
final class ParameterOf<X> extends Term<X> implements ParameterExpression<X> {
    private final String name;

    ParameterOf(Class<X> type, String name) {
        super(type);
        this.name = name;
    }

    @Override
    public String getName() {
        return name;
    }

    @Override
    public Integer getPosition() {
        return null;
    }

    @Override
    @SuppressWarnings("unchecked")
    public Class<X> getParameterType() {
        return (Class<X>) getJavaType();
    }

    @Override
    Tree.Parameter write(Writing to) {
        return to.parameter(this);
    }

    @Override
    List<Term<?>> parts() {
        return List.of();
    }

    @Override
    public String toString() {
        return name == null ? "a parameter of " + getJavaType().getName() : ":" + name;
    }
}
