package karzhoul.jpa.context;

import jakarta.persistence.LockModeType;
import jakarta.persistence.PersistenceException;
import java.util.Arrays;
import java.util.List;
import karzhoul.jpa.model.Attribute;
import karzhoul.jpa.model.EntityModel;
import karzhoul.jpa.model.Relation;

/**
 * One instance of an entity beside the program's object: what the program has of it, and where it stands in its life
 * cycle (chapter 3.2). Of one context, and as that for one thread at a time.
 */
final class Entry {
    /** Where an instance stands. NEW: the program has an object for it, which no manager knows. */
    enum State { NEW, MANAGED, REMOVED, DETACHED }

    /** A collection that the program has not read, and the door's that stands for it. */
    private record NotRead(Lazy collection) {}

    /** What a row has: values as a snapshot keeps them, links as entries. */
    record Row(Object[] values, Object[] relations) {}

    private final EntityModel model;
    private Object instance;
    private Context context;
    private long number;
    private State state;
    private boolean isHollow;
    private boolean isStored;
    private boolean isStale;
    private boolean isComing;
    private List<Object> key;
    private LockModeType lock = LockModeType.NONE;
    private Object plain;
    private Blank blank;

    /** The values and relations of the row, where the program was told of others since; else null. */
    private Object[] cleanValues;
    private Object[] cleanRelations;

    /** What the program has: values as {@link Values} keeps them, links as entries, collections as lists of these. */
    final Object[] values;
    final Object[] relations;

    Entry(EntityModel model, Context context, State state) {
        this.model = model;
        this.context = context;
        this.state = state;
        values = new Object[model.attributes().size()];
        relations = new Object[model.relations().size()];
        forgetTold();
    }

    /** The program has nothing of it but an object without values, links and members. */
    void forgetTold() {
        Arrays.fill(values, null);
        for (Relation relation : model.relations()) {
            relations[relation.place()] = relation.isMany() ? List.of() : null;
        }
        clean();
    }

    EntityModel model() {
        return model;
    }

    Object instance() {
        return instance;
    }

    void instance(Object made) {
        instance = made;
    }

    /** The context that has it, or null once it let it go. */
    Context context() {
        return context;
    }

    /** The number of the program's object in the present run; 0 while it is known by its key alone. */
    long number() {
        return number;
    }

    void number(long given) {
        number = given;
    }

    State state() {
        return state;
    }

    void state(State now) {
        state = now;
    }

    boolean isManaged() {
        return state == State.MANAGED;
    }

    /** Whether it is a proxy that wasn't looked at. */
    boolean isHollow() {
        return isHollow;
    }

    void hollow(boolean is) {
        isHollow = is;
    }

    Blank blank() {
        return blank;
    }

    /** What it has in its fields while it is hollow; null where what is written to them isn't looked for. */
    void blank(Blank made) {
        blank = made;
    }

    /** What was written to the fields of a proxy that wasn't looked at; null where nothing was. */
    Written written() {
        return blank == null ? null : Proxies.asleep(instance, () -> blank.written(this));
    }

    /** Whether its row is there for its manager. */
    boolean isStored() {
        return isStored;
    }

    void stored(boolean is) {
        isStored = is;
    }

    /** Whether another commit changed its row while its manager lived over the end of a run. */
    boolean isStale() {
        return isStale;
    }

    void stale(boolean is) {
        isStale = is;
    }

    /** Whether a reading made it that isn't done. */
    boolean isComing() {
        return isComing;
    }

    void coming(boolean is) {
        isComing = is;
    }

    /** The parts of its key as they are kept, or null while it has none. */
    List<Object> key() {
        return key;
    }

    void key(List<Object> parts) {
        key = parts;
    }

    LockModeType lock() {
        return lock;
    }

    void lock(LockModeType mode) {
        lock = mode;
    }

    /** The program has not read this collection, for which this one of the door stands. */
    void unread(Relation relation, Lazy collection) {
        relations[relation.place()] = new NotRead(collection);
    }

    boolean isUnread(Relation relation) {
        return relations[relation.place()] instanceof NotRead;
    }

    /** What stands for a collection that the program has not read. */
    Lazy unread(Relation relation) {
        return ((NotRead) relations[relation.place()]).collection();
    }

    /** What the program has is about to change. */
    void touch() {
        if (cleanValues == null) {
            cleanValues = values.clone();
            cleanRelations = relations.clone();
        }
    }

    /** What the program has is what the row has. */
    void clean() {
        cleanValues = null;
        cleanRelations = null;
    }

    /** The row, as far as is known here. */
    Row row() {
        return new Row(rowValues(), rowRelations());
    }

    /** What the program was told, and the row where that is another, to be put back. */
    record Told(Object[] values, Object[] relations, Object[] cleanValues, Object[] cleanRelations) {}

    Told told() {
        return new Told(values.clone(), relations.clone(), cleanValues, cleanRelations);
    }

    void told(Told before) {
        System.arraycopy(before.values, 0, values, 0, values.length);
        System.arraycopy(before.relations, 0, relations, 0, relations.length);
        cleanValues = before.cleanValues;
        cleanRelations = before.cleanRelations;
    }

    /** The row before it is written, also where a lock alone does that. */
    Row rowBefore() {
        return cleanValues == null ? new Row(values.clone(), relations.clone()) : row();
    }

    /** The values of the row, as far as is known here. */
    Object[] rowValues() {
        return cleanValues == null ? values : cleanValues;
    }

    Object[] rowRelations() {
        return cleanRelations == null ? relations : cleanRelations;
    }

    boolean isTouched() {
        return cleanValues != null;
    }

    /** The instance that is serialized in a proxy's place: always the same, since graphs go in circles. */
    Object plain() {
        if (plain == null) {
            plain = model.newInstance();
        }
        return plain;
    }

    /** Its context lets it go as it is. */
    void letGo() {
        state = State.DETACHED;
        context = null;
    }

    /** Reads the values of a proxy that is looked at. */
    void fill() {
        if (context == null) {
            throw new PersistenceException(this + " wasn't read before its entity manager let it go: it is detached,"
                + " and a proxy still");
        }
        context.fillProxy(this);
    }

    /** Its row has this version now. */
    void version(long now) {
        if (model.version().isPresent()) {
            Attribute version = model.version().get();
            Object value = version.codec().toAttribute(now);
            version.set(instance, value);
            values[version.place()] = value;
        }
    }

    /** Its row was written again. */
    void raiseVersion() {
        if (model.version().isPresent()) {
            Attribute version = model.version().get();
            version(1 + (Long) version.codec().toColumn(values[version.place()]));
        }
    }

    @Override
    public String toString() {
        return told(model, key);
    }

    /** As a person reads what has this key, or has none. */
    static String told(EntityModel model, List<Object> key) {
        return key == null ? "a new " + model.name() : model.name() + " " + (key.size() == 1 ? key.get(0) : key);
    }
}
