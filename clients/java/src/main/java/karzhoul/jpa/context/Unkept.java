package karzhoul.jpa.context;

import jakarta.persistence.PersistenceException;
import karzhoul.jpa.model.EntityModel;

/** A value that can't be kept in its column. */
final class Unkept extends PersistenceException {
    private static final long serialVersionUID = 1;

    private final String path;

    Unkept(String path, Throwable why) {
        super(path + " can't be stored: " + why.getMessage(), why);
        this.path = path;
    }

    /** The same, with the entity whose value it is. */
    Unkept of(Entry entry) {
        return new Unkept(entry + "." + path, getCause());
    }

    /** The same, of an entity without a key. */
    Unkept of(EntityModel model) {
        return new Unkept(model.name() + "." + path, getCause());
    }
}
