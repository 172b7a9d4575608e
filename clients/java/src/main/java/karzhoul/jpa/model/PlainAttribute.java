package karzhoul.jpa.model;

/** An attribute as it was read. */
final class PlainAttribute implements Attribute {
    private final String path;
    private final String member;
    private final Role role;
    private final Codec codec;
    private final boolean isRequired;
    private final Place where;
    private final String columnName;
    private boolean isInsertable = true;
    private boolean isUpdatable = true;
    private boolean isUnique;
    private Width width = Width.ANY;
    private int place = -1;

    /**
     * @param columnName the column's name, of which its number is made; a part of a key has it for relations alone, and
     *     no number
     */
    PlainAttribute(String path, String member, Role role, Codec codec, boolean isRequired, Place where,
            String columnName) {
        this.path = path;
        this.member = member;
        this.role = role;
        this.codec = codec;
        this.isRequired = isRequired;
        this.where = where;
        this.columnName = columnName;
    }

    String columnName() {
        return columnName;
    }

    int column() {
        return Names.number(columnName);
    }

    /** Says when its column is written. */
    PlainAttribute written(boolean isInsertable, boolean isUpdatable) {
        this.isInsertable = isInsertable;
        this.isUpdatable = isUpdatable;
        return this;
    }

    /** Says whether its column is unique by itself. */
    PlainAttribute unique(boolean isUnique) {
        this.isUnique = isUnique;
        return this;
    }

    boolean isUnique() {
        return isUnique;
    }

    /** Says what its column has room for. */
    PlainAttribute within(Width room) {
        this.width = room;
        return this;
    }

    @Override
    public Width width() {
        return width;
    }

    Place where() {
        return where;
    }

    void stands(int place) {
        this.place = place;
    }

    @Override
    public String path() {
        return path;
    }

    @Override
    public String member() {
        return member;
    }

    @Override
    public Role role() {
        return role;
    }

    @Override
    public Codec codec() {
        return codec;
    }

    @Override
    public boolean isRequired() {
        return isRequired;
    }

    @Override
    public boolean isInsertable() {
        return isInsertable;
    }

    @Override
    public boolean isUpdatable() {
        return isUpdatable;
    }

    @Override
    public int place() {
        return place;
    }

    @Override
    public Object get(Object instance) {
        return where.get(instance);
    }

    @Override
    public Object holder(Object instance) {
        return where.holder(instance);
    }

    @Override
    public void set(Object instance, Object value) {
        where.set(instance, value);
    }

    @Override
    public String toString() {
        return path;
    }
}
