package karzhoul.jpa.criteria;

import jakarta.persistence.criteria.Selection;
import java.util.List;

/** What may be selected, and named once (chapter 6.5.10). */
abstract class Selected<X> implements Selection<X> {
    private final Class<? extends X> javaType;
    private String alias;

    @SuppressWarnings("unchecked")
    Selected(Class<?> javaType) {
        this.javaType = (Class<? extends X>) javaType;
    }

    @Override
    public Class<? extends X> getJavaType() {
        return javaType;
    }

    @Override
    public String getAlias() {
        return alias;
    }

    /**
     * Names it.
     *
     * @throws IllegalStateException where it is named otherwise already
     */
    @Override
    public Selection<X> alias(String name) {
        if (alias != null && !alias.equals(name)) {
            throw new IllegalStateException("it is named \"" + alias + "\" already, and can't be named \"" + name
                    + "\"");
        }
        alias = name;
        return this;
    }

    @Override
    public boolean isCompoundSelection() {
        return false;
    }

    @Override
    public List<Selection<?>> getCompoundSelectionItems() {
        throw new IllegalStateException("it is no compound selection");
    }
}
