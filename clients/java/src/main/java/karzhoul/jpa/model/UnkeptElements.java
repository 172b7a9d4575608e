package karzhoul.jpa.model;

import jakarta.persistence.PersistenceException;

/** A collection of values has an element that can't be kept. */
public final class UnkeptElements extends PersistenceException {
    private static final long serialVersionUID = 1;

    private final String path;
    private final String reason;

    UnkeptElements(String path, String reason, Throwable why) {
        super(path + reason, why);
        this.path = path;
        this.reason = reason;
    }

    /** The same, with the owner of the collection. */
    public UnkeptElements of(Object owner) {
        return new UnkeptElements(owner + path.substring(path.indexOf('.')), reason, getCause());
    }
}
