package karzhoul.jpa.criteria;

import jakarta.persistence.criteria.ParameterExpression;
import jakarta.persistence.criteria.Selection;
import java.util.LinkedHashSet;
import java.util.Set;

/** Finds the parameters of a query that may not be complete yet. */
final class Parameters {
    private final Set<ParameterExpression<?>> found = new LinkedHashSet<>();

    Set<ParameterExpression<?>> found() {
        return found;
    }

    void add(Clauses clauses) {
        clauses.roots.forEach(this::addJoins);
        clauses.correlated.forEach(this::addJoins);
        add(clauses.where);
        clauses.groups.forEach(this::add);
        add(clauses.having);
    }

    private void addJoins(FromOf<?, ?> from) {
        for (JoinOf<?, ?> join : from.joins()) {
            add(join.condition());
            addJoins(join);
        }
    }

    void add(Selection<?> selection) {
        if (selection instanceof Compound<?> compound) {
            compound.items().forEach(this::add);
        } else if (selection instanceof ParameterOf<?> parameter) {
            found.add(parameter);
        } else if (selection instanceof SubqueryOf<?> subquery) {
            add(subquery.clauses());
            add(subquery.getSelection());
        } else if (selection instanceof Term<?> term) {
            term.parts().forEach(this::add);
        }
    }
}
