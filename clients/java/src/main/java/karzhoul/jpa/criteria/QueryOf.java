package karzhoul.jpa.criteria;

import jakarta.persistence.Tuple;
import jakarta.persistence.criteria.CriteriaQuery;
import jakarta.persistence.criteria.Expression;
import jakarta.persistence.criteria.Order;
import jakarta.persistence.criteria.ParameterExpression;
import jakarta.persistence.criteria.Predicate;
import jakarta.persistence.criteria.Selection;
import java.util.ArrayList;
import java.util.List;
import java.util.Set;
import karzhoul.jpa.criteria.Compound.Kind;

/** A SELECT (chapter 6.5.1). */
final class QueryOf<T> implements CriteriaQuery<T>, OverClauses<T> {
    private final Class<T> resultType;
    private final Clauses clauses;
    private Selection<?> selection;
    private List<Order> order = List.of();

    QueryOf(Class<T> resultType, Clauses clauses) {
        this.resultType = resultType;
        this.clauses = clauses;
    }

    @Override
    public Clauses clauses() {
        return clauses;
    }

    /**
     * What is selected; of one root where nothing is said, that.
     *
     * @throws IllegalStateException where it isn't said, and there are several roots or none
     */
    Selection<?> selected() {
        if (selection != null) {
            return selection;
        }
        if (clauses.roots.size() != 1) {
            throw new IllegalStateException("the query selects nothing, and has " + clauses.roots.size() + " roots");
        }
        return clauses.roots.get(0);
    }

    // ---- SELECT

    @Override
    public CriteriaQuery<T> select(Selection<? extends T> selection) {
        if (!(selection instanceof Selected<?>)) {
            throw new IllegalArgumentException(selection + " is no selection of this provider");
        }
        this.selection = selection;
        return this;
    }

    @Override
    public CriteriaQuery<T> multiselect(Selection<?>... selections) {
        return multiselect(List.of(selections));
    }

    @Override
    public CriteriaQuery<T> multiselect(List<Selection<?>> selections) {
        boolean isPlain = resultType == Object.class && selections.size() == 1;
        if (isPlain || selections.size() == 1 && isItem(selections.get(0))) {
            new Compound<>(Kind.ARRAY, Object[].class, selections);
            selection = selections.get(0);
        } else if (resultType == Tuple.class) {
            selection = new Compound<>(Kind.TUPLE, resultType, selections);
        } else if (resultType == Object.class || resultType.isArray()) {
            selection = new Compound<>(Kind.ARRAY, resultType, selections);
        } else {
            selection = new Compound<>(Kind.CONSTRUCT, resultType, selections);
        }
        return this;
    }

    /** Whether results are the item itself, and not made of it. */
    private boolean isItem(Selection<?> item) {
        return !resultType.isArray() && resultType != Tuple.class && item.getJavaType() != null
                && Term.boxed(resultType).isAssignableFrom(Term.boxed(item.getJavaType()));
    }

    @Override
    @SuppressWarnings("unchecked")
    public Selection<T> getSelection() {
        return (Selection<T>) selection;
    }

    @Override
    public Class<T> getResultType() {
        return resultType;
    }

    @Override
    public CriteriaQuery<T> distinct(boolean isDistinct) {
        clauses.isDistinct = isDistinct;
        return this;
    }

    // ---- WHERE

    @Override
    public CriteriaQuery<T> where(Expression<Boolean> restriction) {
        clauses.where = Condition.that(restriction);
        return this;
    }

    @Override
    public CriteriaQuery<T> where(Predicate... restrictions) {
        clauses.where = restrictions.length == 0 ? null : Junction.all(restrictions);
        return this;
    }

    // ---- GROUP BY, HAVING and ORDER BY

    @Override
    public CriteriaQuery<T> groupBy(Expression<?>... expressions) {
        return groupBy(List.of(expressions));
    }

    @Override
    public CriteriaQuery<T> groupBy(List<Expression<?>> expressions) {
        clauses.group(expressions);
        return this;
    }

    @Override
    public CriteriaQuery<T> having(Expression<Boolean> restriction) {
        clauses.having = Condition.that(restriction);
        return this;
    }

    @Override
    public CriteriaQuery<T> having(Predicate... restrictions) {
        clauses.having = restrictions.length == 0 ? null : Junction.all(restrictions);
        return this;
    }

    @Override
    public CriteriaQuery<T> orderBy(Order... keys) {
        return orderBy(List.of(keys));
    }

    @Override
    public CriteriaQuery<T> orderBy(List<Order> keys) {
        order = List.copyOf(keys);
        return this;
    }

    @Override
    public List<Order> getOrderList() {
        return new ArrayList<>(order);
    }

    @Override
    public Set<ParameterExpression<?>> getParameters() {
        Parameters parameters = new Parameters();
        parameters.add(clauses);
        parameters.add(selection);
        order.forEach(key -> parameters.add(key.getExpression()));
        return parameters.found();
    }
}
