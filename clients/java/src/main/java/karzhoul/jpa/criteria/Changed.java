package karzhoul.jpa.criteria;

import jakarta.persistence.metamodel.Metamodel;

/** What an UPDATE and a DELETE have in common: the one root, and WHERE (chapter 6.5.15). */
final class Changed<T> {
    private final Metamodel metamodel;
    private final Class<T> entity;
    private RootOf<T> root;
    Condition where;

    /**
     * Of an entity.
     *
     * @throws IllegalArgumentException where the class is none
     */
    Changed(Metamodel metamodel, Class<T> entity) {
        this.metamodel = metamodel;
        this.entity = entity;
        metamodel.entity(entity);
    }

    Metamodel metamodel() {
        return metamodel;
    }

    /**
     * The root.
     *
     * @throws IllegalArgumentException where it is of another entity
     */
    RootOf<T> from(Class<T> asked) {
        if (asked != entity) {
            throw new IllegalArgumentException("the statement changes " + entity.getName() + ", and no "
                    + (asked == null ? "null" : asked.getName()));
        }
        if (root == null) {
            root = new RootOf<>(metamodel.entity(entity));
        }
        return root;
    }

    /**
     * The root.
     *
     * @throws IllegalStateException where there is none yet
     */
    RootOf<T> root() {
        if (root == null) {
            throw new IllegalStateException("the statement has no root: call from(" + entity.getSimpleName()
                    + ".class)");
        }
        return root;
    }
}
