package karzhoul.jpa.model;

import static org.junit.jupiter.api.Assertions.assertEquals;
import static org.junit.jupiter.api.Assertions.assertFalse;
import static org.junit.jupiter.api.Assertions.assertNotNull;
import static org.junit.jupiter.api.Assertions.assertNull;
import static org.junit.jupiter.api.Assertions.assertSame;
import static org.junit.jupiter.api.Assertions.assertThrows;
import static org.junit.jupiter.api.Assertions.assertTrue;

import jakarta.persistence.Access;
import jakarta.persistence.AccessType;
import jakarta.persistence.AssociationOverride;
import jakarta.persistence.AttributeConverter;
import jakarta.persistence.AttributeOverride;
import jakarta.persistence.CascadeType;
import jakarta.persistence.Column;
import jakarta.persistence.Convert;
import jakarta.persistence.Converter;
import jakarta.persistence.DiscriminatorValue;
import jakarta.persistence.Embeddable;
import jakarta.persistence.Embedded;
import jakarta.persistence.EmbeddedId;
import jakarta.persistence.Entity;
import jakarta.persistence.Enumerated;
import jakarta.persistence.EnumType;
import jakarta.persistence.FetchType;
import jakarta.persistence.GeneratedValue;
import jakarta.persistence.GenerationType;
import jakarta.persistence.Id;
import jakarta.persistence.Inheritance;
import jakarta.persistence.InheritanceType;
import jakarta.persistence.JoinColumn;
import jakarta.persistence.JoinTable;
import jakarta.persistence.Lob;
import jakarta.persistence.ManyToMany;
import jakarta.persistence.ManyToOne;
import jakarta.persistence.MappedSuperclass;
import jakarta.persistence.NamedQuery;
import jakarta.persistence.OneToMany;
import jakarta.persistence.OneToOne;
import jakarta.persistence.OrderBy;
import jakarta.persistence.QueryHint;
import jakarta.persistence.SequenceGenerator;
import jakarta.persistence.Table;
import jakarta.persistence.Transient;
import jakarta.persistence.Version;
import java.math.BigDecimal;
import java.time.LocalDate;
import java.util.ArrayList;
import java.util.Arrays;
import java.util.Collection;
import java.util.EnumSet;
import java.util.HashMap;
import java.util.HashSet;
import java.util.List;
import java.util.Map;
import java.util.Optional;
import java.util.Set;
import java.util.UUID;
import org.junit.jupiter.api.Test;

/** What annotated classes become (chapters 2 and 11). The program takes each of the mappings. */
class ReaderTest {
    static UnitModel read(Class<?>... classes) {
        UnitModel unit = Reader.read("test", List.of(classes));
        try {
            assertEquals("", Programs.judge(unit.mapping()), unit.mapping());
        } catch (java.io.IOException | InterruptedException fault) {
            throw new AssertionError(fault);
        }
        return unit;
    }

    static Attribute attribute(EntityModel entity, String path) {
        return entity.attributes().stream().filter(it -> it.path().equals(path)).findFirst()
                .orElseThrow(() -> new AssertionError(path + " is none of " + entity.attributes()));
    }

    static Relation relation(EntityModel entity, String path) {
        return entity.relations().stream().filter(it -> it.path().equals(path)).findFirst()
                .orElseThrow(() -> new AssertionError(path + " is none of " + entity.relations()));
    }

    static List<String> paths(EntityModel entity) {
        return entity.attributes().stream().map(Attribute::path).toList();
    }

    // ---- plain entities, by fields and by properties -----------------------------------------------------------------

    enum Mood { GLAD, SAD }

    @Entity
    @Table(name = "persons")
    @NamedQuery(name = "Person.all", query = "SELECT p FROM Person p", hints = @QueryHint(name = "a", value = "b"))
    @NamedQuery(name = "Person.none", query = "SELECT p FROM Person p WHERE p.id = 0")
    static class Person {
        static int count;
        @Id @GeneratedValue private Long id;
        @Version private int version;
        @Column(nullable = false) private String name;
        @Enumerated(EnumType.STRING) private Mood mood;
        private Mood before;
        private LocalDate born;
        @Column(precision = 10, scale = 3) private BigDecimal weight;
        private BigDecimal credit;
        private boolean isActive;
        private char letter;
        @Lob private byte[] picture;
        @Lob private ArrayList<String> notes;
        private transient String passing;
        @Transient private String left;
        @OneToMany(mappedBy = "person", cascade = CascadeType.ALL, orphanRemoval = true) @OrderBy("number DESC")
        private List<Order> orders = new ArrayList<>();
        @ManyToMany(cascade = {CascadeType.PERSIST, CascadeType.MERGE}, fetch = FetchType.EAGER) private Set<Tag> tags = new HashSet<>();

        private Person() {}
    }

    @Entity(name = "Purchase")
    static class Order {
        @Id int number;
        @ManyToOne(optional = false, fetch = FetchType.LAZY) Person person;
        @OneToOne @JoinColumn(name = "tag_code") Tag best;
    }

    @Entity
    static class Tag {
        @Id String code;
        @ManyToMany(mappedBy = "tags") @OrderBy Collection<Person> persons;
        @OneToOne(mappedBy = "best") Order bestOf;
    }

    @Test
    void aPlainEntity() {
        UnitModel unit = read(Tag.class, Person.class, Order.class);
        EntityModel person = unit.of(Person.class);
        assertEquals(List.of("id", "version", "name", "mood", "before", "born", "weight", "credit", "isActive", "letter", "picture",
                "notes"), paths(person));
        assertEquals(Attribute.Role.KEY, attribute(person, "id").role());
        assertEquals(Attribute.Role.VERSION, person.version().orElseThrow().role());
        assertEquals(KeyModel.Generation.COUNTER, person.key().generation());
        assertEquals(Long.class, person.key().javaClass());
        assertTrue(attribute(person, "name").isRequired());
        assertFalse(attribute(person, "born").isRequired());
        assertEquals("text", attribute(person, "mood").codec().meaning());
        assertEquals("places of GLAD SAD", attribute(person, "before").codec().meaning());
        assertEquals("decimal of 3", attribute(person, "weight").codec().meaning());
        assertEquals("decimal of 2", attribute(person, "credit").codec().meaning());
        assertEquals("serialized", attribute(person, "notes").codec().meaning());
        assertSame(unit.named("Purchase"), unit.of(Order.class));
        assertNull(unit.named("Order"));
        for (int i = 0; i < person.attributes().size(); i++) {
            assertEquals(i, person.attributes().get(i).place());
        }
        UnitModel.Named all = unit.namedQueries().get("Person.all");
        assertEquals(new UnitModel.Named("Person.all", "SELECT p FROM Person p", Map.of("a", "b")), all);
        assertEquals(2, unit.namedQueries().size());
        assertThrows(IllegalArgumentException.class, () -> unit.of(String.class));
        assertThrows(IllegalArgumentException.class, () -> unit.of(new Person() {}.getClass()));
    }

    @Test
    void fourRelationsWithBothSides() {
        UnitModel unit = read(Tag.class, Person.class, Order.class);
        Relation orders = relation(unit.of(Person.class), "orders");
        Relation person = relation(unit.of(Order.class), "person");
        Relation tags = relation(unit.of(Person.class), "tags");
        Relation persons = relation(unit.of(Tag.class), "persons");
        Relation best = relation(unit.of(Order.class), "best");
        assertEquals(Relation.Kind.ONE_TO_MANY, orders.kind());
        assertEquals(Relation.Container.LIST, orders.container());
        assertEquals(Optional.of(person), orders.mappedBy());
        assertTrue(orders.removesOrphans() && orders.isLazy() && !orders.isOwner() && !orders.isJoined());
        assertEquals(EnumSet.complementOf(EnumSet.of(CascadeType.ALL)), orders.cascades());
        assertEquals(List.of(new Relation.Order(attribute(unit.of(Order.class), "number"), true)), orders.orders());
        assertTrue(person.isRequired() && person.isLazy() && person.isOwner());
        assertEquals(Relation.Container.SET, tags.container());
        assertTrue(tags.isOwner() && !tags.isLazy());
        assertEquals(Set.of(CascadeType.PERSIST, CascadeType.MERGE), tags.cascades());
        assertEquals(Relation.Container.COLLECTION, persons.container());
        assertEquals(List.of(new Relation.Order(attribute(unit.of(Person.class), "id"), false)), persons.orders());
        assertEquals(Relation.Kind.ONE_TO_ONE, best.kind());
        assertFalse(best.isLazy());
        assertEquals(Optional.of(best), relation(unit.of(Tag.class), "bestOf").mappedBy());
        assertSame(unit.of(Tag.class), best.target());
    }

    @Test
    void valuesOfInstances() {
        EntityModel entity = read(Tag.class, Person.class, Order.class).of(Person.class);
        Object person = entity.newInstance();
        attribute(entity, "name").set(person, "Ada");
        attribute(entity, "isActive").set(person, null);
        attribute(entity, "letter").set(person, 'x');
        assertEquals("Ada", attribute(entity, "name").get(person));
        assertEquals(false, attribute(entity, "isActive").get(person));
        assertEquals('x', attribute(entity, "letter").get(person));
        assertNull(entity.key().of(person));
        entity.key().assign(person, 7L);
        assertEquals(7L, entity.key().of(person));
        assertEquals(List.of(7L), entity.key().columnsOf(7L));
        assertThrows(IllegalArgumentException.class, () -> entity.key().columnsOf(7));
        assertThrows(IllegalArgumentException.class, () -> entity.key().columnsOf(null));
        relation(entity, "orders").set(person, null);
        assertNull(relation(entity, "orders").get(person));
    }

    @Entity
    static class ByProperty {
        private long key;
        private String theURL;
        private boolean done;
        String nothing;

        @Id public long getKey() { return key; }
        public void setKey(long key) { this.key = key; }
        public String getURL() { return theURL; }
        protected void setURL(String url) { theURL = "set " + url; }
        public boolean isDone() { return done; }
        void setDone(boolean done) { this.done = done; }
        public String getDerived() { return "only read"; }
        @Transient public String getLeft() { return null; }
        public void setLeft(String left) {}
        @Access(AccessType.FIELD) String mixed;
    }

    @Test
    void accessByProperties() {
        EntityModel entity = read(ByProperty.class).of(ByProperty.class);
        assertEquals(Set.of("key", "URL", "done", "mixed"), Set.copyOf(paths(entity)));
        ByProperty instance = new ByProperty();
        attribute(entity, "URL").set(instance, "x");
        assertEquals("set x", attribute(entity, "URL").get(instance));
    }

    @Entity
    @Access(AccessType.FIELD)
    static class ByBoth {
        @Id int id;
        @Transient String name;

        @Access(AccessType.PROPERTY) public String getName() { return "<" + name + ">"; }
        public void setName(String name) { this.name = name; }
        public String getOther() { return null; }
        public void setOther(String other) {}
    }

    @Test
    void accessOfSingleMembers() {
        EntityModel entity = read(ByBoth.class).of(ByBoth.class);
        assertEquals(List.of("id", "name"), paths(entity));
        ByBoth instance = new ByBoth();
        attribute(entity, "name").set(instance, "a");
        assertEquals("<a>", attribute(entity, "name").get(instance));
    }

    // ---- mapped superclasses, embeddables, overrides -----------------------------------------------------------------

    @MappedSuperclass
    abstract static class Base<K, T extends Base<?, ?>> {
        @Id K id;
        @Version Long version;
        String note;
        @ManyToOne T parent;
        @OneToMany(mappedBy = "parent") List<T> children;
    }

    @Entity
    @AttributeOverride(name = "note", column = @Column(name = "remark", nullable = false))
    @AssociationOverride(name = "parent", joinColumns = @JoinColumn(name = "above"))
    static class Node extends Base<UUID, Node> {}

    @Entity
    static class Leaf extends Base<String, Leaf> {}

    @Test
    void aGenericMappedSuperclass() {
        UnitModel unit = read(Node.class, Leaf.class);
        EntityModel node = unit.of(Node.class);
        assertEquals(List.of("id", "version", "note"), paths(node));
        assertEquals(UUID.class, node.key().javaClass());
        assertEquals(String.class, unit.of(Leaf.class).key().javaClass());
        assertSame(node, relation(node, "parent").target());
        assertSame(unit.of(Leaf.class), relation(unit.of(Leaf.class), "children").target());
        assertTrue(attribute(node, "note").isRequired());
        assertFalse(attribute(unit.of(Leaf.class), "note").isRequired());
        assertEquals("remark", ((PlainAttribute) attribute(node, "note")).columnName());
        assertEquals("above", ((PlainRelation) relation(node, "parent")).storedName());
        assertEquals("parent", ((PlainRelation) relation(unit.of(Leaf.class), "parent")).storedName());
    }

    @Embeddable
    static class Address {
        String street;
        String city;
        @Embedded Zip zip;
        @ManyToOne Tag tag;
    }

    @Embeddable
    static class Zip {
        int code;
        @Column(name = "zip_part") String part;
    }

    @Entity
    @AttributeOverride(name = "work.zip.code", column = @Column(name = "by_class"))
    static class House {
        @Id int id;
        Address home;
        @Embedded
        @AttributeOverride(name = "city", column = @Column(name = "work_city"))
        @AttributeOverride(name = "zip.part", column = @Column(name = "work_part"))
        @AttributeOverride(name = "zip.code", column = @Column(name = "not_this"))
        @AssociationOverride(name = "tag", joinColumns = @JoinColumn(name = "work_tag"))
        Address work;
    }

    @Test
    void embeddablesWithinEmbeddables() {
        EntityModel house = read(House.class, Tag.class, Person.class, Order.class).of(House.class);
        assertEquals(List.of("id", "home.street", "home.city", "home.zip.code", "home.zip.part", "work.street", "work.city",
                "work.zip.code", "work.zip.part"), paths(house));
        assertEquals("work__zip__part", attribute(house, "work.zip.part").member());
        assertEquals("work_part", ((PlainAttribute) attribute(house, "work.zip.part")).columnName());
        assertEquals("work_city", ((PlainAttribute) attribute(house, "work.city")).columnName());
        assertEquals("zip_part", ((PlainAttribute) attribute(house, "home.zip.part")).columnName());
        assertEquals("by_class", ((PlainAttribute) attribute(house, "work.zip.code")).columnName());
        assertEquals("work_tag", ((PlainRelation) relation(house, "work.tag")).storedName());
        House instance = new House();
        assertNull(attribute(house, "home.zip.code").get(instance));
        attribute(house, "home.zip.code").set(instance, null);
        assertNull(instance.home, "a null makes no embeddable");
        attribute(house, "home.zip.code").set(instance, 8000);
        assertEquals(8000, instance.home.zip.code);
        assertEquals(8000, attribute(house, "home.zip.code").get(instance));
        attribute(house, "home.zip.code").set(instance, null);
        assertEquals(0, instance.home.zip.code);
        assertNull(instance.work);
        relation(house, "work.tag").set(instance, new Tag());
        assertNotNull(instance.work.tag);
    }

    @Test
    void aGetterThatAnswersACopy() {
        Map<String, Attribute> byPath = new HashMap<>();
        EntityModel careful = read(Cautious.class).of(Cautious.class);
        careful.attributes().forEach(it -> byPath.put(it.path(), it));
        Cautious instance = new Cautious();
        byPath.get("span.from").set(instance, 3);
        byPath.get("span.to").set(instance, 5);
        assertEquals(3, byPath.get("span.from").get(instance));
        assertEquals(5, byPath.get("span.to").get(instance));
    }

    @Embeddable
    @Access(AccessType.FIELD)
    static class Span implements Cloneable {
        int from;
        int to;

        Span copy() {
            Span copy = new Span();
            copy.from = from;
            copy.to = to;
            return copy;
        }
    }

    @Entity
    static class Cautious {
        private int id;
        private Span span = new Span();

        @Id public int getId() { return id; }
        public void setId(int id) { this.id = id; }
        public Span getSpan() { return span.copy(); }
        public void setSpan(Span given) { span = given.copy(); }
    }

    // ---- keys --------------------------------------------------------------------------------------------------------

    @Entity
    static class Counted {
        @Id @GeneratedValue(strategy = GenerationType.SEQUENCE, generator = "counter")
        @SequenceGenerator(name = "counter", sequenceName = "counter_seq", allocationSize = 1) int id;
    }

    @Entity
    static class ByTable {
        @Id @GeneratedValue(strategy = GenerationType.TABLE) Short id;
    }

    @Entity
    static class ByUuid {
        @Id @GeneratedValue UUID id;
    }

    @Entity
    static class ByUuidText {
        @Id @GeneratedValue(strategy = GenerationType.UUID) String id;
    }

    @Test
    void generatedKeys() {
        UnitModel unit = read(Counted.class, ByTable.class, ByUuid.class, ByUuidText.class);
        assertEquals(KeyModel.Generation.COUNTER, unit.of(Counted.class).key().generation());
        assertEquals(KeyModel.Generation.COUNTER, unit.of(ByTable.class).key().generation());
        assertEquals(KeyModel.Generation.UUID, unit.of(ByUuid.class).key().generation());
        assertEquals(KeyModel.Generation.UUID, unit.of(ByUuidText.class).key().generation());
        assertNull(unit.of(Counted.class).key().of(new Counted()), "a primitive zero is no generated key");
        assertEquals((short) 3, unit.of(ByTable.class).key().fromColumns(List.of(3L)));
    }

    // ---- relations of other forms ------------------------------------------------------------------------------------

    @Entity
    static class Desk {
        @Id int id;
        @OneToMany(cascade = CascadeType.ALL, orphanRemoval = true) List<Counted> drawers;
        @OneToMany @JoinColumn(name = "desk_id") Set<ByUuid> lamps;
        @ManyToMany @JoinTable(name = "desk_tables") List<ByTable> tables;
        @ManyToOne @JoinTable(name = "desk_owner", inverseJoinColumns = @JoinColumn(name = "owner_id")) ByUuidText owner;
        @OneToMany(targetEntity = Counted.class) Collection<?> any;
        @ManyToOne(targetEntity = Counted.class) Object one;
    }

    @Test
    void relationsWithoutMappedByAndJoinTables() {
        EntityModel desk = read(Desk.class, Counted.class, ByTable.class, ByUuid.class, ByUuidText.class).of(Desk.class);
        Relation drawers = relation(desk, "drawers");
        assertTrue(drawers.isJoined() && drawers.isOwner() && drawers.removesOrphans());
        assertEquals(Relation.Kind.ONE_TO_MANY, drawers.kind());
        assertTrue(relation(desk, "lamps").isJoined());
        assertFalse(relation(desk, "tables").isJoined());
        assertEquals("Desk_drawers", ((PlainRelation) drawers).storedName());
        assertEquals("Desk.desk_id", ((PlainRelation) relation(desk, "lamps")).storedName());
        assertEquals("desk_tables", ((PlainRelation) relation(desk, "tables")).storedName());
        assertEquals("owner_id", ((PlainRelation) relation(desk, "owner")).storedName());
        assertEquals(Counted.class, relation(desk, "any").target().javaClass());
        assertEquals(Counted.class, relation(desk, "one").target().javaClass());
    }

    // ---- hierarchies -------------------------------------------------------------------------------------------------

    @Entity
    @Inheritance(strategy = InheritanceType.JOINED)
    @DiscriminatorValue("v")
    abstract static class Vehicle {
        @Id @GeneratedValue Long id;
        String name;
    }

    static class Plain extends Vehicle {
        String isNotKept;
    }

    @MappedSuperclass
    static class Wheeled extends Plain {
        int wheels;
        @ManyToOne Counted maker;
    }

    @Entity
    static class Car extends Wheeled {
        String code;
    }

    @Entity
    @DiscriminatorValue("b")
    static class Boat extends Vehicle {
        int code;
    }

    @Entity
    static class Racer extends Car {
        int speed;
    }

    @Test
    void aHierarchyWithPlainAndMappedClassesBetween() {
        UnitModel unit = read(Racer.class, Boat.class, Car.class, Vehicle.class, Counted.class);
        EntityModel vehicle = unit.of(Vehicle.class);
        EntityModel racer = unit.of(Racer.class);
        assertTrue(vehicle.isAbstract());
        assertEquals(List.of("id", "name", "wheels", "code", "speed"), paths(racer));
        assertEquals(Optional.of(unit.of(Car.class)), racer.superEntity());
        assertSame(vehicle, racer.root());
        assertEquals(Set.of(unit.of(Car.class), unit.of(Boat.class)), Set.copyOf(vehicle.subEntities()));
        assertTrue(racer.isA(vehicle) && !unit.of(Boat.class).isA(unit.of(Car.class)));
        assertSame(relation(unit.of(Car.class), "maker"), relation(racer, "maker"));
        assertTrue(unit.mapping().contains("\"discriminator\":\"b\""));
        assertTrue(vehicle.key() == racer.key());
    }

    // ---- converters --------------------------------------------------------------------------------------------------

    record Money(long cents) {}

    @Converter(autoApply = true)
    static class MoneyConverter implements AttributeConverter<Money, Long> {
        @Override public Long convertToDatabaseColumn(Money money) { return money == null ? -1L : money.cents(); }
        @Override public Money convertToEntityAttribute(Long cents) { return cents == -1 ? null : new Money(cents); }
    }

    abstract static class Turning<X> implements AttributeConverter<X, String> {}

    @Converter
    static class ListConverter extends Turning<List<String>> {
        @Override public String convertToDatabaseColumn(List<String> list) { return list == null ? null : String.join(",", list); }
        @Override public List<String> convertToEntityAttribute(String text) { return text == null ? null : Arrays.asList(text.split(",")); }
    }

    static class Reversed implements AttributeConverter<String, String> {
        @Override public String convertToDatabaseColumn(String text) { return text == null ? null : new StringBuilder(text).reverse().toString(); }
        @Override public String convertToEntityAttribute(String text) { return convertToDatabaseColumn(text); }
    }

    @Entity
    @Convert(attributeName = "box.label", converter = Reversed.class)
    static class Priced {
        @Id int id;
        Money price;
        @Convert(converter = ListConverter.class) List<String> tags;
        @Convert(converter = Reversed.class) String back;
        Box box;
        @Convert(attributeName = "label", disableConversion = true) @Convert(attributeName = "lid", converter = Reversed.class) Box other;
    }

    @Embeddable
    static class Box {
        String label;
        @Convert(converter = ListConverter.class) List<String> parts;
        String lid;
    }

    @Test
    void converters() {
        EntityModel priced = read(Priced.class, MoneyConverter.class, Box.class).of(Priced.class);
        Codec price = attribute(priced, "price").codec();
        assertEquals(Sort.INT, price.sort());
        assertEquals(-1L, price.toColumn(null), "a converter is asked of null");
        assertNull(price.toAttribute(-1L));
        assertEquals(new Money(5), price.toAttribute(5L));
        assertFalse(price.isMutable());
        assertTrue(attribute(priced, "tags").codec().isMutable());
        assertEquals("a,b", attribute(priced, "tags").codec().toColumn(List.of("a", "b")));
        assertEquals("ba", attribute(priced, "back").codec().toColumn("ab"));
        assertEquals("ba", attribute(priced, "box.label").codec().toColumn("ab"));
        assertEquals("ab", attribute(priced, "other.label").codec().toColumn("ab"));
        assertEquals("ba", attribute(priced, "other.lid").codec().toColumn("ab"));
        assertEquals("ab", attribute(priced, "box.lid").codec().toColumn("ab"));
        assertThrows(jakarta.persistence.PersistenceException.class, () -> price.toAttribute(null), "it raised");
    }

    @Converter(autoApply = true)
    static class Backwards extends Reversed {}

    @Embeddable
    static class TextKey {
        String code;
    }

    @Entity
    static class KeyedByText {
        @EmbeddedId TextKey id;
        String name;
    }

    @Test
    void aConverterThatAppliesByItselfDoesNotToKeys() {
        EntityModel entity = read(KeyedByText.class, Backwards.class).of(KeyedByText.class);
        assertEquals("ab", attribute(entity, "id.code").codec().toColumn("ab"));
        assertEquals("ba", attribute(entity, "name").codec().toColumn("ab"));
    }

    // ---- names -------------------------------------------------------------------------------------------------------

    @Entity(name = "Größe")
    static class Odd {
        @Id int select;
        String größe;
        String address__city;
        Town address;
        int aVeryLongNameOfAnAttributeThatGoesOnAndOnUntilItIsLongerThanSixtyFourLetters;
    }

    @Embeddable
    static class Town {
        String city;
    }

    @Test
    void oddNames() {
        UnitModel unit = read(Odd.class);
        EntityModel odd = unit.of(Odd.class);
        assertEquals("Größe", odd.name());
        assertEquals("Gr_uf6_udfe", odd.mappedName());
        assertEquals("gr_uf6_udfe", attribute(odd, "größe").member());
        assertEquals("address__city", attribute(odd, "address__city").member());
        assertEquals("address__city_2", attribute(odd, "address.city").member());
        assertEquals(64, odd.attributes().get(4).member().length());
    }

    @Test
    void numbersAreOfTheNamesAlone() {
        assertEquals(Names.number("persons"), Names.number("PERSONS"));
        assertEquals(844754, Names.number("persons"));
        assertEquals(read(Person.class, Order.class, Tag.class).description(), read(Tag.class, Order.class, Person.class).description());
    }
}
