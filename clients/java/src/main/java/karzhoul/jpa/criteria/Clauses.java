package karzhoul.jpa.criteria;

import jakarta.persistence.criteria.Expression;
import jakarta.persistence.criteria.Root;
import jakarta.persistence.metamodel.EntityType;
import jakarta.persistence.metamodel.Metamodel;
import java.util.ArrayList;
import java.util.LinkedHashSet;
import java.util.List;
import java.util.Set;

/** What a query and a subquery have in common (chapter 6.5.1). */
final class Clauses {
    final Metamodel metamodel;
    final List<RootOf<?>> roots = new ArrayList<>();
    /** What stands in a subquery for roots and joins of the queries around it. */
    final List<FromOf<?, ?>> correlated = new ArrayList<>();
    List<Term<?>> groups = List.of();
    Condition where;
    Condition having;
    boolean isDistinct;

    Clauses(Metamodel metamodel) {
        this.metamodel = metamodel;
    }

    <X> Root<X> from(Class<X> entity) {
        return from(metamodel.entity(entity));
    }

    <X> Root<X> from(EntityType<X> entity) {
        RootOf<X> root = new RootOf<>(entity);
        roots.add(root);
        return root;
    }

    Set<Root<?>> roots() {
        return new LinkedHashSet<>(roots);
    }

    void group(List<Expression<?>> expressions) {
        groups = Term.each(expressions.toArray(new Expression<?>[0]));
    }

    List<Expression<?>> groupList() {
        return new ArrayList<>(groups);
    }
}
