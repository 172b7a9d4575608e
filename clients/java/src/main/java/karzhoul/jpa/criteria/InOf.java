package karzhoul.jpa.criteria;

import jakarta.persistence.criteria.CriteriaBuilder.In;
import jakarta.persistence.criteria.Expression;
import java.util.ArrayList;
import java.util.Collection;
import java.util.List;
import karzhoul.jpa.query.Tree;

/** IN of values, of a parameter that is a collection, or of a subquery. */
final class InOf<X> extends Condition implements In<X> {
    private final Term<?> term;
    private final List<Term<?>> values = new ArrayList<>();

    InOf(Term<?> term) {
        this.term = term;
    }

    InOf(Term<?> term, Collection<?> values) {
        this(term);
        values.forEach(value -> this.values.add(Term.ofValue(value)));
    }

    @Override
    @SuppressWarnings("unchecked")
    public Expression<X> getExpression() {
        return (Expression<X>) term;
    }

    @Override
    public In<X> value(X value) {
        values.add(Term.ofValue(value));
        return this;
    }

    @Override
    public In<X> value(Expression<? extends X> value) {
        values.add(Term.of(value));
        return this;
    }

    @Override
    Tree.Condition write(Writing to) {
        int at = to.at();
        if (values.isEmpty()) {
            to.add("1 = 0");
            return new Tree.Always(at, false);
        }
        Tree.Value value = to.value(term);
        to.add(" IN ");
        if (values.size() == 1 && values.get(0) instanceof SubqueryOf<?> subquery) {
            return new Tree.InSelect(at, false, value, subquery.writeBlock(to));
        }
        if (values.size() == 1 && values.get(0) instanceof ParameterOf<?> list) {
            return new Tree.InParameter(at, false, value, list.write(to));
        }
        boolean isList = values.stream().allMatch(one -> one instanceof Constant<?> constant
                && !(constant.value() instanceof Class));
        if (isList) {
            List<Object> all = new ArrayList<>();
            values.forEach(one -> all.add(((Constant<?>) one).value()));
            return new Tree.InParameter(at, false, value, to.bound(all));
        }
        List<Tree.Value> written = to.add("(").values(values);
        to.add(")");
        return new Tree.In(at, false, value, written);
    }

    @Override
    List<Term<?>> parts() {
        List<Term<?>> parts = new ArrayList<>(List.of(term));
        parts.addAll(values);
        return parts;
    }
}
