package karzhoul.jpa.criteria;

import karzhoul.jpa.query.Tree;

/** The key or the entry of a join along a map, or the place of one along a list (chapters 6.5.3 and 6.5.11). */
final class PartOf<X> extends PathOf<X> {
    private final String part;
    private final JoinOf<?, ?> of;

    /**
     * @param part KEY, ENTRY or INDEX
     */
    PartOf(Class<?> javaType, String part, JoinOf<?, ?> of) {
        super(javaType, of, null, null);
        this.part = part;
        this.of = of;
    }

    @Override
    Tree.Value write(Writing to) {
        FromOf<?, ?> join = of;
        while (join.outer() instanceof FromOf<?, ?> outer) {
            join = outer;
        }
        return to.part(part, join);
    }
}
