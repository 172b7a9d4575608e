package karzhoul.jpa.model;

import java.util.List;

/**
 * The order of a list of entities (chapter 11.1.43): an entity of the mapping has the keys of the members, in their
 * order, for each owner; what is long is in several parts.
 */
public final class ListOrder implements KeyedRows {
    private static final String OWNER = "id.owner";
    private static final String PART = "id.part";
    /** Its attribute: the keys of members, a line each. */
    static final String MEMBERS = "members";

    private final PlainEntity rows;

    /** @param declared the class and the member of the relation */
    ListOrder(String name, String mappedName, String declared) {
        rows = new PlainEntity(ListOrder.class, name, mappedName, null, name, "order");
        rows.isDeclaredAt(declared);
        rows.isKnownBy(new PlainKey(List.of(key(OWNER, String.class), key(PART, Long.class)),
                KeyModel.Generation.ASSIGNED, null, null, null, false), "id");
        rows.has(new PlainAttribute(MEMBERS, MEMBERS, Attribute.Role.PLAIN, BasicCodecs.fixed(String.class), true, null,
                MEMBERS));
    }

    private static PlainAttribute key(String name, Class<?> type) {
        return new PlainAttribute(name, name, Attribute.Role.KEY, BasicCodecs.fixed(type), true, null, name);
    }

    @Override
    public String mappedName() {
        return rows.mappedName();
    }

    @Override
    public List<String> keyMembers() {
        return List.of(OWNER, PART);
    }

    @Override
    public String content() {
        return MEMBERS;
    }

    PlainEntity rows() {
        return rows;
    }
}
