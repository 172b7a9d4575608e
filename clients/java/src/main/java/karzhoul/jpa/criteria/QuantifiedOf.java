package karzhoul.jpa.criteria;

import java.util.List;
import karzhoul.jpa.query.Tree;

/** ALL or ANY of a subquery, which stands on the right of a comparison alone. */
final class QuantifiedOf<X> extends Term<X> {
    private final boolean isAll;
    private final SubqueryOf<?> subquery;

    QuantifiedOf(boolean isAll, SubqueryOf<?> subquery) {
        super(subquery.getJavaType());
        this.isAll = isAll;
        this.subquery = subquery;
    }

    boolean isAll() {
        return isAll;
    }

    Tree.Select writeBlock(Writing to) {
        return subquery.writeBlock(to.add(isAll ? "ALL " : "ANY "));
    }

    @Override
    Tree.Expression write(Writing to) {
        throw new IllegalArgumentException((isAll ? "ALL" : "ANY")
                + " of a subquery stands on the right of a comparison alone");
    }

    @Override
    List<Term<?>> parts() {
        return List.of(subquery);
    }
}
