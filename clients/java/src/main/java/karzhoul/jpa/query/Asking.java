package karzhoul.jpa.query;

import jakarta.persistence.FlushModeType;
import jakarta.persistence.LockModeType;
import java.util.List;
import karzhoul.jpa.graph.RootGraph;
import karzhoul.jpa.model.EntityModel;
import karzhoul.jpa.model.ListOrder;
import karzhoul.jpa.model.Relation;
import karzhoul.jpa.model.Unique;
import karzhoul.jpa.model.UnitModel;

/** What queries need of the entity manager that they belong to. The context implements it. */
public interface Asking {
    /**
     * An object of the program, as a row or a parameter names it. Only the context makes one: its number is of one
     * run of the program, and what it holds finds the object again where that run has ended meanwhile.
     */
    record Ref(long number, Object held) {}

    UnitModel unit();

    /** Refuses a manager that is closed: IllegalStateException. */
    void needOpen();

    /** Refuses where no transaction is open: TransactionRequiredException. */
    void needTransaction();

    /** The manager's own flush mode. */
    FlushModeType flushMode();

    /** Locks an instance of a result, as {@code EntityManager.lock} does (chapter 3.4.4). */
    void lock(Object instance, LockModeType mode);

    /** Marks an open transaction, so that it can only roll back, and answers what is raised for it (chapter 3.11). */
    <E extends RuntimeException> E marked(E raised);

    /** Flushes first, where this mode and an open transaction ask for it (chapter 3.10.8); runs callbacks. */
    void flushBefore(FlushModeType mode);

    /**
     * The rows of a statement of the program's language. An item is null, a Long, a String, a byte[] or a {@link Ref}.
     * A parameter is one of these, or a list of them, by its name or its number in the text.
     *
     * @param findsOne whether one object is expected at most: then it is read in the same trip
     * @throws jakarta.persistence.PersistenceException or IllegalArgumentException, as the program's refusal says
     */
    List<Object[]> rows(String text, List<Parameter> parameters, Integer first, Integer max, boolean findsOne);

    /**
     * The rows of a SELECT of the object with this key, read in one trip; null where an instance of the key is known here,
     * so that what is stored may be another.
     *
     * @param entity the root of its hierarchy
     */
    List<Object[]> unknown(EntityModel entity, List<Object> key);

    /** How many objects an UPDATE or a DELETE concerned. */
    int update(String text, List<Parameter> parameters);

    /** A unique value that a statement moved; its columns are null where the object had none, or has none now. */
    record Moved(Unique unique, List<Object> key, List<Object> before, List<Object> after) {}

    /**
     * Takes what a statement has moved.
     *
     * @throws jakarta.persistence.PersistenceException where two objects would have one value; the transaction is marked
     */
    void moved(List<Moved> all);

    /** Lets the orders of a list go with their owners, each by its key in one text. */
    void ordersGone(ListOrder order, List<String> owners);

    /** A parameter: a name (a text) or a number, and its value. */
    record Parameter(Object name, Object value) {}

    /** The instances with these keys, in this order, read in one trip; null for each without a row, and for null. */
    List<Object> found(EntityModel entity, List<Object> keys);

    /** Whether an instance is managed. */
    boolean isManaged(Object instance);

    /** The instances of these objects, each filled, in this order; of many at a time in one trip. */
    List<Object> instances(List<Ref> refs);

    /**
     * The object of an instance as a parameter.
     *
     * @throws IllegalArgumentException where it is no entity's, or new and not managed
     */
    Ref refOf(Object instance);

    /** Reads a relation of these instances in one trip, as JOIN FETCH asks; its members, each once. */
    List<Object> fetch(List<Object> instances, Relation relation);

    /**
     * The entity graph that a hint gives, or names.
     *
     * @throws IllegalArgumentException where it is none
     */
    RootGraph<?> graph(Object given);

    /** Reads what a graph names of those instances that are of its entity. */
    void read(List<Object> instances, RootGraph<?> graph);
}
