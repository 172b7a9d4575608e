package karzhoul.jpa.model;

/**
 * An attribute or a part of a key that will be looked up, as an index of a table says (chapter 11.1.23).
 *
 * @param entity the entity's name in the mapping, of the class that declares it
 * @param member its name in the mapping
 */
public record Indexed(String entity, String member) {
    Indexed(PlainEntity entity, Attribute attribute) {
        this(entity.mappedName(), attribute.member());
    }

    @Override
    public String toString() {
        return entity + "." + member;
    }
}
