package karzhoul.jpa.model;

import java.lang.invoke.MethodHandle;
import java.lang.reflect.Modifier;
import java.util.ArrayList;
import java.util.HashSet;
import java.util.List;
import java.util.Optional;
import java.util.Set;
import java.util.stream.Stream;

/** An entity as it was read. It is joined to others by the {@link Reader}, and doesn't change afterwards. */
final class PlainEntity implements EntityModel {
    private final String name;
    private final String mappedName;
    private final Class<?> javaClass;
    private final PlainEntity above;
    private final String table;
    private final String discriminator;
    private final boolean isAbstract;
    private List<EntityModel> below = List.of();
    private final Set<String> names = new HashSet<>();
    private final List<PlainAttribute> ownAttributes = new ArrayList<>();
    private final List<PlainRelation> ownRelations = new ArrayList<>();
    private final List<KeyCopy> ownCopies = new ArrayList<>();
    private final List<Unique> ownUniques = new ArrayList<>();
    private List<Attribute> attributes = List.of();
    private List<Relation> relations = List.of();
    private List<KeyCopy> copies = List.of();
    private PlainKey key;
    private String keyName;
    private PlainAttribute version;
    private Callbacks callbacks;
    private MethodHandle constructor;
    private volatile Optional<Fields> fields;
    private boolean hasEmbeddables;
    private Elements elements;
    private String declaredAt;
    private Sequence sequence;
    private KeyGenerator generator;

    PlainEntity(Class<?> javaClass, String name, String mappedName, PlainEntity above, String table,
            String discriminator) {
        this.javaClass = javaClass;
        this.name = name;
        this.mappedName = mappedName;
        this.above = above;
        this.table = table;
        this.discriminator = discriminator;
        this.isAbstract = Modifier.isAbstract(javaClass.getModifiers());
        if (above != null) {
            above.below = Stream.concat(above.below.stream(), Stream.of(this)).toList();
        }
    }

    /** Takes the name of a member, of whatever sort. */
    void declares(String name) {
        names.add(name);
    }

    /** Whether this class or one above has a member of this name. */
    boolean hasMember(String name) {
        return names.contains(name) || above != null && above.hasMember(name);
    }

    /** @param keyName the name in the mapping under which the parts stand, or null */
    void isKnownBy(PlainKey key, String keyName) {
        this.key = key;
        this.keyName = keyName;
    }

    void isVersionedBy(PlainAttribute version) {
        this.version = version;
    }

    void has(PlainAttribute attribute) {
        ownAttributes.add(attribute);
    }

    void has(PlainRelation relation) {
        ownRelations.add(relation);
    }

    void has(KeyCopy copy) {
        ownCopies.add(copy);
    }

    void has(Unique unique) {
        ownUniques.add(unique);
    }

    void tells(Callbacks callbacks) {
        this.callbacks = callbacks;
    }

    /** @param declared the class and the member of the collection */
    void isRowsOf(Elements collection, String declared) {
        elements = collection;
        isDeclaredAt(declared);
    }

    /** @param declared the class and the member for which it is there */
    void isDeclaredAt(String declared) {
        declaredAt = declared;
    }

    /** Its keys are the blocks of this one, and it has no rows. */
    void isSequence(Sequence sequence) {
        this.sequence = sequence;
    }

    /** Whose blocks its keys are; null of an entity that has rows. */
    Sequence sequence() {
        return sequence;
    }

    /** Where it is declared: its class, the collection whose rows it has, or the first member that is unique. */
    String declaredAt() {
        return declaredAt == null ? javaClass.getName() : declaredAt;
    }

    void isMadeBy(MethodHandle constructor) {
        this.constructor = constructor;
    }

    /** Gives each attribute and relation its place: the key, the version, and then those of the classes from above. */
    void order() {
        List<Attribute> all = new ArrayList<>();
        List<Relation> leading = new ArrayList<>();
        if (above == null) {
            all.addAll(key.parts());
            version().ifPresent(all::add);
        } else {
            all.addAll(above.attributes);
            leading.addAll(above.relations);
        }
        all.addAll(ownAttributes);
        leading.addAll(ownRelations);
        for (int i = 0; i < all.size(); i++) {
            ((PlainAttribute) all.get(i)).stands(i);
        }
        for (int i = 0; i < leading.size(); i++) {
            ((PlainRelation) leading.get(i)).stands(i);
        }
        copies = Stream.concat(above == null ? Stream.empty() : above.copies.stream(), ownCopies.stream()).toList();
        attributes = List.copyOf(all);
        relations = List.copyOf(leading);
        hasEmbeddables = places().stream().anyMatch(place -> place != null && place.reader() == null);
    }

    PlainEntity above() {
        return above;
    }

    String table() {
        return table;
    }

    String discriminator() {
        return discriminator;
    }

    String keyName() {
        return keyName;
    }

    PlainKey plainKey() {
        return above == null ? key : above.plainKey();
    }

    List<PlainAttribute> ownAttributes() {
        return ownAttributes;
    }

    List<PlainRelation> ownRelations() {
        return ownRelations;
    }

    List<KeyCopy> ownCopies() {
        return ownCopies;
    }

    List<Unique> ownUniques() {
        return ownUniques;
    }

    /** Takes what its key says of how it is generated. */
    void isGeneratedBy(KeyGenerator generator) {
        this.generator = generator;
    }

    /** How its key is generated; null of one that the application gives. */
    KeyGenerator generator() {
        return generator;
    }

    /** The name of a column that a class of the hierarchy declares: below the root columns are a class's own. */
    String columnOf(String name) {
        return above == null ? name : this.name + "." + name;
    }

    /** The relation to one that this entity or one above keeps in the column of this name. */
    Optional<PlainRelation> joinedBy(String column) {
        for (PlainEntity at = this; at != null; at = at.above) {
            for (PlainRelation relation : at.ownRelations) {
                if (relation.isOwner() && !relation.isMany()
                        && relation.storedName().equalsIgnoreCase(at.columnOf(column))) {
                    return Optional.of(relation);
                }
            }
        }
        return Optional.empty();
    }

    /** The relation of this path that this entity or one above declares. */
    Optional<PlainRelation> relation(String path) {
        for (PlainEntity at = this; at != null; at = at.above) {
            for (PlainRelation relation : at.ownRelations) {
                if (relation.path().equals(path)) {
                    return Optional.of(relation);
                }
            }
        }
        return Optional.empty();
    }

    /** The part of the key, the version or the attribute of this path, also before places were given. */
    Optional<Attribute> find(String path) {
        Stream<Attribute> top = above != null ? above.find(path).stream()
                : Stream.concat(version().stream(), key == null ? Stream.empty() : key.parts().stream());
        return Stream.concat(top, ownAttributes.stream()).filter(attribute -> attribute.path().equals(path))
                .findFirst();
    }

    @Override
    public String name() {
        return name;
    }

    @Override
    public String mappedName() {
        return mappedName;
    }

    @Override
    public Class<?> javaClass() {
        return javaClass;
    }

    @Override
    public boolean isAbstract() {
        return isAbstract;
    }

    @Override
    public Optional<EntityModel> superEntity() {
        return Optional.ofNullable(above);
    }

    @Override
    public PlainEntity root() {
        return above == null ? this : above.root();
    }

    @Override
    public List<EntityModel> subEntities() {
        return below;
    }

    @Override
    public KeyModel key() {
        return plainKey();
    }

    @Override
    public Optional<Attribute> version() {
        return above == null ? Optional.ofNullable(version) : above.version();
    }

    @Override
    public List<Attribute> attributes() {
        return attributes;
    }

    @Override
    public List<Relation> relations() {
        return relations;
    }

    @Override
    public List<KeyCopy> copies() {
        return copies;
    }

    @Override
    public List<Unique> uniques() {
        return above == null ? ownUniques : Stream.concat(above.uniques().stream(), ownUniques.stream()).toList();
    }

    @Override
    public Optional<Elements> rowsOf() {
        return Optional.ofNullable(elements);
    }

    @Override
    public Callbacks callbacks() {
        return callbacks;
    }

    @Override
    public Object[] fieldsOf(Object instance) {
        if (fields == null) {
            List<Place> places = places();
            fields = Optional.of(places).filter(all -> all.stream().allMatch(place -> place != null && place.isOfFields())).map(Fields::new);
        }
        return fields.isEmpty() ? null : fields.get().of(instance);
    }

    private List<Place> places() {
        Stream<Place> ofAttributes = attributes.stream().map(each -> ((PlainAttribute) each).where());
        return Stream.concat(ofAttributes, relations.stream().map(each -> ((PlainRelation) each).where())).toList();
    }

    @Override
    public boolean hasEmbeddables() {
        return hasEmbeddables;
    }

    @Override
    public Object newInstance() {
        return Accessor.make(constructor);
    }

    @Override
    public String toString() {
        return name;
    }
}
