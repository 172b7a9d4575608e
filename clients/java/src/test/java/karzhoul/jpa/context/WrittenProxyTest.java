package karzhoul.jpa.context;

import static org.junit.jupiter.api.Assertions.assertEquals;
import static org.junit.jupiter.api.Assertions.assertFalse;
import static org.junit.jupiter.api.Assertions.assertNotEquals;
import static org.junit.jupiter.api.Assertions.assertNotSame;
import static org.junit.jupiter.api.Assertions.assertNull;
import static org.junit.jupiter.api.Assertions.assertSame;
import static org.junit.jupiter.api.Assertions.assertThrows;
import static org.junit.jupiter.api.Assertions.assertTrue;

import jakarta.persistence.Access;
import jakarta.persistence.AccessType;
import jakarta.persistence.AssociationOverride;
import jakarta.persistence.AttributeConverter;
import jakarta.persistence.AttributeOverride;
import jakarta.persistence.Basic;
import jakarta.persistence.CascadeType;
import jakarta.persistence.Column;
import jakarta.persistence.Convert;
import jakarta.persistence.Converter;
import jakarta.persistence.ElementCollection;
import jakarta.persistence.Embeddable;
import jakarta.persistence.Entity;
import jakarta.persistence.EntityNotFoundException;
import jakarta.persistence.FetchType;
import jakarta.persistence.Id;
import jakarta.persistence.JoinColumn;
import jakarta.persistence.ManyToOne;
import jakarta.persistence.MapKey;
import jakarta.persistence.OneToMany;
import jakarta.persistence.PersistenceException;
import jakarta.persistence.PostLoad;
import jakarta.persistence.PreUpdate;
import jakarta.persistence.RollbackException;
import jakarta.persistence.Transient;
import jakarta.persistence.Version;
import java.io.ByteArrayInputStream;
import java.io.ByteArrayOutputStream;
import java.io.IOException;
import java.io.ObjectInputStream;
import java.io.ObjectOutputStream;
import java.io.Serializable;
import java.math.BigDecimal;
import java.math.RoundingMode;
import java.util.ArrayList;
import java.util.Date;
import java.util.HashMap;
import java.util.List;
import java.util.Map;
import java.util.UUID;
import org.junit.jupiter.api.AfterEach;
import org.junit.jupiter.api.BeforeEach;
import org.junit.jupiter.api.Test;

/** What is written to a field of a proxy that nobody has read, and by no method of it, is stored or refused in words. */
class WrittenProxyTest {
    @Embeddable
    static class Place implements Serializable {
        private static final long serialVersionUID = 1;
        String street;
        String city;
        @ManyToOne(fetch = FetchType.LAZY) Part near;

        protected Place() {}

        Place(String street, String city) {
            this.street = street;
            this.city = city;
        }
    }

    @Entity
    static class Part implements Serializable {
        private static final long serialVersionUID = 1;
        @Id Long id;
        @Version int version;
        int number;
        String text;
        UUID token = UUID.randomUUID();
        BigDecimal price = BigDecimal.ONE;
        Date made = new Date();
        Place place;
        @AttributeOverride(name = "street", column = @Column(name = "street2"))
        @AttributeOverride(name = "city", column = @Column(name = "city2"))
        @AssociationOverride(name = "near", joinColumns = @JoinColumn(name = "near2"))
        Place second = new Place();
        @Basic @Column(updatable = false) String once;
        @ManyToOne(fetch = FetchType.LAZY) Part next;
        @ManyToOne(fetch = FetchType.LAZY, cascade = CascadeType.PERSIST) Part other;
        @OneToMany(mappedBy = "other") List<Part> parts = new ArrayList<>();
        @OneToMany(mappedBy = "next") @MapKey(name = "text") Map<String, Part> byText = new HashMap<>();
        @ElementCollection List<String> tags = new ArrayList<>();
        @ElementCollection Map<String, Integer> counts = new HashMap<>();
        @Transient Part alsoWrites;

        protected Part() {}

        Part(long id) {
            this.id = id;
        }

        int read() {
            return number;
        }

        @PreUpdate
        void update() {
            if (alsoWrites != null) {
                alsoWrites.text = "by a callback";
            }
        }

        @PostLoad
        void load() {
            if ("loaded".equals(text)) {
                text = "by the load";
            }
        }
    }

    @Entity
    @Access(AccessType.PROPERTY)
    static class Owned {
        private Long id;
        String name;
        private List<String> words = new ArrayList<>();

        @Id
        public Long getId() {
            return id;
        }

        public void setId(Long id) {
            this.id = id;
        }

        public String getName() {
            return name;
        }

        public void setName(String name) {
            this.name = name;
        }

        @ElementCollection
        public List<String> getWords() {
            return new ArrayList<>(words);
        }

        public void setWords(List<String> words) {
            this.words = words;
        }
    }

    @Embeddable
    static class Home {
        @Column(precision = 12, scale = 2) BigDecimal rent;

        protected Home() {}

        Home(String rent) {
            this.rent = new BigDecimal(rent);
        }
    }

    @Converter
    static class Fails implements AttributeConverter<String, String> {
        static boolean isNext;

        @Override
        public String convertToDatabaseColumn(String text) {
            return text;
        }

        @Override
        public String convertToEntityAttribute(String text) {
            if (isNext) {
                isNext = false;
                throw new IllegalStateException("converter");
            }
            return text;
        }
    }

    @Entity
    static class Person {
        @Id Long id;
        @Version int version;
        String name = "init";
        int age;
        @Convert(converter = Fails.class) String motto;
        String zone;
        @ElementCollection List<Home> homes = new ArrayList<>();
        @ElementCollection List<String> words = new ArrayList<>();
        @Transient boolean rounds;

        String getName() {
            return name;
        }

        @PreUpdate
        void update() {
            homes.forEach(home -> home.rent = rounds ? home.rent.setScale(2, RoundingMode.HALF_UP) : home.rent);
        }
    }

    private Factory factory;
    private Manager manager;

    @BeforeEach
    void open() {
        factory = Units.over("karzhoul:memory", Part.class, Owned.class, Person.class);
        manager = (Manager) factory.createEntityManager();
        Part one = new Part(1);
        one.number = 5;
        one.text = "five";
        one.price = new BigDecimal("5.00");
        one.made = new Date(5);
        one.place = new Place("Low Street", "Zug");
        one.second = new Place("High Street", "Bern");
        one.once = "first";
        one.tags = new ArrayList<>(List.of("a", "b"));
        one.counts = new HashMap<>(Map.of("a", 1));
        Part two = new Part(2);
        one.place.near = two;
        one.second.near = two;
        two.other = one;
        two.next = one;
        two.text = "two";
        Owned owned = new Owned();
        owned.setId(1L);
        owned.setName("owned");
        owned.setWords(List.of("w"));
        commit(() -> {
            manager.persist(one);
            manager.persist(two);
            manager.persist(new Part(3));
            manager.persist(owned);
        });
        manager.clear();
    }

    /** A reference to a person that is stored, of which nothing was read. */
    private Person person() {
        Person person = new Person();
        person.id = 1L;
        person.name = "row";
        person.age = 33;
        person.motto = "m";
        person.zone = "z";
        person.homes.add(new Home("1.00"));
        person.words.add("l");
        commit(() -> manager.persist(person));
        manager.clear();
        return manager.getReference(Person.class, 1L);
    }

    private static List<String> rents(Person person) {
        return person.homes.stream().map(home -> home.rent.toString()).toList();
    }

    @AfterEach
    void close() {
        if (manager.getTransaction().isActive()) {
            manager.getTransaction().rollback();
        }
        factory.close();
    }

    private void commit(Runnable done) {
        manager.getTransaction().begin();
        done.run();
        manager.getTransaction().commit();
    }

    /** The proxy of the first part, of which nothing was read. */
    private Part proxy() {
        Part proxy = manager.find(Part.class, 2L).other;
        assertFalse(LoadStates.isRead(proxy));
        return proxy;
    }

    /** The first part as it is stored. */
    private Part stored() {
        manager.clear();
        Part stored = manager.find(Part.class, 1L);
        stored.tags.size();
        stored.counts.size();
        stored.parts.size();
        stored.byText.size();
        return stored;
    }

    private Throwable refused(Runnable done) {
        return assertThrows(RollbackException.class, () -> commit(done)).getCause();
    }

    @Test
    void aFieldIsStored() {
        commit(() -> proxy().number = 1);
        Part stored = stored();
        assertEquals(1, stored.number);
        assertEquals("five", stored.text);
        assertEquals(new BigDecimal("5.00"), stored.price);
        assertEquals("Bern", stored.second.city);
        assertEquals(List.of("a", "b"), stored.tags);
        assertEquals(1, stored.version);
    }

    @Test
    void ofAReferenceToo() {
        commit(() -> manager.getReference(Part.class, 1L).number = 1);
        assertEquals(1, stored().number);
    }

    @Test
    void ofOneThatTheProgramKnowsByItsNumber() {
        commit(() -> {
            Part proxy = manager.getReference(Part.class, 1L);
            manager.find(Part.class, 3L).next = proxy;
            manager.flush();
            assertFalse(LoadStates.isRead(proxy));
            proxy.number = 1;
        });
        assertEquals(1, stored().number);
    }

    @Test
    void whatIsLeftAloneIsNotWritten() {
        UUID token = manager.find(Part.class, 1L).token;
        manager.clear();
        commit(() -> {
            Part proxy = proxy();
            assertNotEquals(token, proxy.token);
            manager.getReference(Part.class, 3L);
        });
        commit(() -> manager.find(Part.class, 2L).number = 9);
        Part stored = stored();
        assertEquals(0, stored.version);
        assertEquals(token, stored.token);
        assertEquals(new Date(5), stored.made);
    }

    @Test
    void aMethodThatIsCalledLaterKeepsIt() {
        commit(() -> {
            Part proxy = proxy();
            proxy.number = 1;
            assertEquals(1, proxy.read());
            assertEquals("five", proxy.text);
        });
        assertEquals(1, stored().number);
    }

    @Test
    void aFindAQueryAndALockKeepIt() {
        commit(() -> {
            Part proxy = proxy();
            proxy.number = 1;
            assertSame(proxy, manager.find(Part.class, 1L));
            assertEquals(1, proxy.number);
            manager.clear();
            Part again = proxy();
            again.number = 2;
            assertEquals(List.of(again), manager.createQuery("SELECT p FROM Part p WHERE p.number = 2", Part.class).getResultList());
            assertEquals(2, again.number);
        });
        assertEquals(2, stored().number);
        manager.clear();
        Part proxy = proxy();
        proxy.number = 3;
        assertEquals(3, manager.createQuery("SELECT p FROM Part p WHERE p.id = 1", Part.class).getSingleResult().number);
        commit(() -> {});
        assertEquals(3, stored().number);
    }

    @Test
    void aCallbackWritesIt() {
        commit(() -> {
            Part two = manager.find(Part.class, 2L);
            two.alsoWrites = two.other;
            two.number = 2;
        });
        assertEquals("by a callback", stored().text);
    }

    @Test
    void itIsWrittenAfterPostLoad() {
        commit(() -> manager.find(Part.class, 1L).text = "loaded");
        manager.clear();
        commit(() -> proxy().text = "by hand");
        assertEquals("by hand", stored().text);
    }

    @Test
    void embeddedValues() {
        commit(() -> {
            Part proxy = proxy();
            proxy.place = new Place("New Street", null);
            proxy.second.street = "Side Street";
        });
        Part stored = stored();
        assertEquals("New Street", stored.place.street);
        assertNull(stored.place.city, "a whole one was written");
        assertNull(stored.place.near);
        assertEquals(2L, stored.second.near.id);
        assertEquals("Side Street", stored.second.street);
        assertEquals("Bern", stored.second.city);
        commit(() -> {
            manager.clear();
            manager.getReference(Part.class, 1L).second = new Place();
        });
        assertNull(stored().second.street);
        assertNull(stored().second.city);
    }

    @Test
    void whatChangesInPlace() {
        commit(() -> proxy().made.setTime(7));
        assertEquals(new Date(7), stored().made);
    }

    @Test
    void aRelation() {
        commit(() -> proxy().next = manager.find(Part.class, 3L));
        assertEquals(3L, stored().next.id);
        manager.clear();
        commit(() -> {
            Part fresh = new Part(4);
            fresh.text = "fresh";
            proxy().other = fresh;
        });
        assertEquals(4L, stored().other.id);
        assertEquals("fresh", manager.find(Part.class, 4L).text);
    }

    @Test
    void aCollectionThatIsReplaced() {
        commit(() -> {
            Part proxy = proxy();
            proxy.tags = new ArrayList<>();
            proxy.counts = new HashMap<>(Map.of("z", 26));
        });
        Part stored = stored();
        assertEquals(List.of(), stored.tags);
        assertEquals(Map.of("z", 26), stored.counts);
        commit(() -> {
            manager.clear();
            manager.getReference(Part.class, 1L).counts = null;
        });
        assertEquals(Map.of(), stored().counts);
    }

    @Test
    void aCollectionThatIsAddedTo() {
        commit(() -> {
            Part proxy = proxy();
            proxy.tags.add("c");
            proxy.counts.put("b", 2);
            Part three = manager.find(Part.class, 3L);
            three.other = proxy;
            three.next = proxy;
            proxy.parts.add(three);
            proxy.byText.put("three", three);
            three.text = "three";
        });
        Part stored = stored();
        assertEquals(List.of("a", "b", "c"), stored.tags);
        assertEquals(Map.of("a", 1, "b", 2), stored.counts);
        assertEquals(2, stored.parts.size());
        assertEquals(2, stored.byText.size());
    }

    @Test
    void refreshDetachAndClearLetItGo() {
        commit(() -> {
            Part proxy = proxy();
            proxy.number = 1;
            manager.refresh(proxy);
            assertEquals(5, proxy.number);
            manager.clear();
            Part again = proxy();
            again.number = 1;
            manager.detach(again);
            manager.clear();
            proxy().number = 1;
            manager.clear();
        });
        assertEquals(5, stored().number);
    }

    @Test
    void aRemovedOneGoes() {
        commit(() -> {
            manager.find(Part.class, 2L).next = null;
            Part proxy = proxy();
            manager.find(Part.class, 2L).other = null;
            proxy.number = 1;
            manager.remove(proxy);
            assertEquals(1, proxy.number);
        });
        manager.clear();
        assertNull(manager.find(Part.class, 1L));
    }

    @Test
    void aVersionIsRefusedAsThatOfAnyOther() {
        Throwable cause = refused(() -> {
            Part proxy = proxy();
            proxy.version = 9;
            proxy.number = 1;
        });
        assertEquals("the version of Part 1 was changed: version is 9, and its row has 0; leave it to the provider, and find the"
            + " entity again", cause.getMessage());
        assertEquals(0, stored().version);
    }

    @Test
    void aKeyIsRefused() {
        Throwable cause = refused(() -> proxy().id = 9L);
        assertEquals("the key of Part 1 was changed: id is 9", cause.getMessage());
    }

    @Test
    void aRowThatIsNotThere() {
        Throwable cause = refused(() -> manager.getReference(Part.class, 99L).number = 1);
        assertEquals(EntityNotFoundException.class, cause.getClass());
        assertEquals("EntityNotFound, Part 99, whose number was written: there is no such row", cause.getMessage());
    }

    @Test
    void outsideOfATransactionItWaitsForTheNext() {
        Part proxy = proxy();
        proxy.number = 1;
        commit(() -> {});
        assertEquals(1, stored().number);
    }

    @Test
    void aDetachedOneIsMerged() {
        Part two = manager.find(Part.class, 2L);
        Part proxy = two.other;
        manager.clear();
        proxy.number = 1;
        proxy.place = new Place(null, "Chur");
        commit(() -> {
            Part merged = manager.merge(proxy);
            assertNotSame(proxy, merged);
            assertEquals(1, merged.number);
        });
        Part stored = stored();
        assertEquals(1, stored.number);
        assertEquals("five", stored.text);
        assertEquals("Chur", stored.place.city);
        assertNull(stored.place.street);
    }

    @Test
    void aRelationOfADetachedOneIsRefused() {
        Part proxy = proxy();
        Part three = manager.find(Part.class, 3L);
        manager.clear();
        proxy.next = three;
        manager.getTransaction().begin();
        String words = assertThrows(PersistenceException.class, () -> manager.merge(proxy)).getMessage();
        assertEquals("Part 1 wasn't read before it was detached, and its next was written since: merge can't tell it; set it on"
            + " what find answers", words);
    }

    @Test
    void anUnreadDetachedOneIsMergedAsItIs() {
        Part proxy = proxy();
        manager.clear();
        commit(() -> assertEquals(5, manager.merge(proxy).read()));
        assertEquals(0, stored().version);
    }

    @Test
    void aSerializedOne() throws Exception {
        Part proxy = proxy();
        proxy.number = 1;
        assertEquals(1, copied(proxy).number, "it was read for that");
        commit(() -> {});
        assertEquals(1, stored().number);
        manager.clear();
        Part unread = proxy();
        manager.clear();
        Part copy = copied(unread);
        commit(() -> manager.merge(copy));
        copy.number = 7;
        manager.getTransaction().begin();
        String words = assertThrows(PersistenceException.class, () -> manager.merge(copy)).getMessage();
        assertEquals("Part 1 wasn't read before it was serialized, and its number was written since: merge can't tell it; set it"
            + " on what find answers", words);
        manager.getTransaction().rollback();
        unread.number = 8;
        assertThrows(PersistenceException.class, () -> copied(unread));
    }

    @SuppressWarnings("unchecked")
    private static <T> T copied(T instance) throws IOException, ClassNotFoundException {
        ByteArrayOutputStream bytes = new ByteArrayOutputStream();
        try (ObjectOutputStream out = new ObjectOutputStream(bytes)) {
            out.writeObject(instance);
        }
        return (T) new ObjectInputStream(new ByteArrayInputStream(bytes.toByteArray())).readObject();
    }

    @Test
    void aMergeOntoItWins() {
        Part one = manager.find(Part.class, 1L);
        one.tags.size();
        manager.clear();
        one.text = "merged";
        commit(() -> {
            Part proxy = proxy();
            proxy.text = "by hand";
            manager.merge(one);
            assertEquals("merged", proxy.text);
        });
        assertEquals("merged", stored().text);
    }

    @Test
    void aFieldBehindProperties() {
        commit(() -> manager.getReference(Owned.class, 1L).name = "by hand");
        manager.clear();
        Owned owned = manager.find(Owned.class, 1L);
        assertEquals("by hand", owned.getName());
        assertEquals(List.of("w"), owned.getWords());
        assertTrue(LoadStates.isRead(owned));
    }

    @Test
    void besideAnElementThatDoesNotFit() {
        Person person = person();
        Home home = new Home("2.999");
        commit(() -> {
            person.name = "written";
            person.homes.add(home);
            assertEquals("written", person.getName(), "what is read isn't judged");
            home.rent = new BigDecimal("3.00");
        });
        manager.clear();
        Person stored = manager.find(Person.class, 1L);
        assertEquals("written", stored.name);
        assertEquals(33, stored.age);
        assertEquals(List.of("1.00", "3.00"), rents(stored));
    }

    @Test
    void anElementThatDoesNotFitIsRefusedByTheFlush() {
        Person person = person();
        Throwable cause = refused(() -> {
            person.name = "written";
            person.homes.add(new Home("2.999"));
            person.getName();
        });
        assertEquals("Person 1.homes can't be stored", cause.getMessage().substring(0, 30));
        assertEquals("written", person.name);
    }

    @Test
    void anElementThatPreUpdateMakesFit() {
        Person person = person();
        commit(() -> {
            person.rounds = true;
            person.homes = new ArrayList<>(List.of(new Home("2.999")));
        });
        manager.clear();
        Person again = manager.getReference(Person.class, 1L);
        commit(() -> {
            again.rounds = true;
            again.homes.add(new Home("4.999"));
        });
        manager.clear();
        assertEquals(List.of("3.00", "5.00"), rents(manager.find(Person.class, 1L)));
    }

    @Test
    void aConverterThatThrowsLeavesIt() {
        for (boolean isIn : new boolean[] {true, false}) {
            Person person = isIn ? person() : manager.getReference(Person.class, 1L);
            String written = "written" + isIn;
            if (isIn) {
                manager.getTransaction().begin();
            }
            person.name = written;
            person.zone = written;
            person.words.add(written);
            Fails.isNext = true;
            assertThrows(PersistenceException.class, person::getName);
            assertFalse(LoadStates.isRead(person));
            assertEquals(written, person.name);
            if (isIn) {
                manager.getTransaction().commit();
            } else {
                commit(() -> {});
            }
            manager.clear();
            Person stored = manager.find(Person.class, 1L);
            assertEquals(written, stored.name);
            assertEquals(written, stored.zone);
            assertEquals(written, stored.words.get(stored.words.size() - 1));
            assertEquals("m", stored.motto);
            assertEquals(33, stored.age);
            manager.clear();
        }
    }

    @Test
    void outsideOfATransactionBesideAnElementThatDoesNotFit() {
        person();
        List<Runnable> reads = List.of(() -> manager.getReference(Person.class, 1L).getName(),
            () -> manager.find(Person.class, 1L),
            () -> manager.createQuery("SELECT p FROM Person p WHERE p.id = 1", Person.class).getResultList(),
            () -> {});
        for (int i = 0; i < reads.size(); i++) {
            manager.clear();
            Person person = manager.getReference(Person.class, 1L);
            person.zone = "written " + i;
            person.words = new ArrayList<>(List.of("w" + i));
            person.homes = new ArrayList<>(List.of(new Home("2.999")));
            reads.get(i).run();
            assertEquals("2.999", person.homes.get(0).rent.toString());
            person.homes.get(0).rent = new BigDecimal(i + ".00");
            commit(() -> {});
            manager.clear();
            Person stored = manager.find(Person.class, 1L);
            assertEquals("written " + i, stored.zone);
            assertEquals("row", stored.name);
            assertEquals(List.of("w" + i), List.copyOf(stored.words));
            assertEquals(List.of(i + ".00"), rents(stored));
        }
    }

    @Test
    void refreshLetsGoOfAnElementThatDoesNotFit() {
        Person person = person();
        commit(() -> {
            person.homes.add(new Home("2.999"));
            manager.refresh(person);
        });
        assertEquals(List.of("1.00"), rents(person));
    }
}
