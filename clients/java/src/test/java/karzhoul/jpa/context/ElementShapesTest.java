package karzhoul.jpa.context;

import static org.junit.jupiter.api.Assertions.assertEquals;
import static org.junit.jupiter.api.Assertions.assertFalse;
import static org.junit.jupiter.api.Assertions.assertTrue;

import jakarta.persistence.AttributeConverter;
import jakarta.persistence.AttributeOverride;
import jakarta.persistence.CollectionTable;
import jakarta.persistence.Column;
import jakarta.persistence.Convert;
import jakarta.persistence.Converter;
import jakarta.persistence.ElementCollection;
import jakarta.persistence.Embeddable;
import jakarta.persistence.Embedded;
import jakarta.persistence.Entity;
import jakarta.persistence.EntityManager;
import jakarta.persistence.Id;
import jakarta.persistence.MapKeyTemporal;
import jakarta.persistence.MappedSuperclass;
import jakarta.persistence.OrderBy;
import jakarta.persistence.TemporalType;
import jakarta.persistence.criteria.CriteriaQuery;
import jakarta.persistence.criteria.Root;
import jakarta.persistence.metamodel.Attribute.PersistentAttributeType;
import jakarta.persistence.metamodel.EntityType;
import jakarta.persistence.metamodel.MapAttribute;
import jakarta.persistence.metamodel.PluralAttribute;
import java.util.ArrayList;
import java.util.Collections;
import java.util.Date;
import java.util.HashMap;
import java.util.HashSet;
import java.util.List;
import java.util.Map;
import java.util.Set;
import java.util.function.Consumer;
import org.junit.jupiter.api.AfterEach;
import org.junit.jupiter.api.BeforeEach;
import org.junit.jupiter.api.Test;

/** Where collections of values may stand, and what may stand in them (chapters 2.2, 2.5, 2.6, 2.7, 3.7, 3.8, 5, 6). */
class ElementShapesTest {
    /** A value with a converter. */
    record Color(int code) {}

    @Converter(autoApply = true)
    static class ColorConverter implements AttributeConverter<Color, String> {
        @Override
        public String convertToDatabaseColumn(Color color) {
            return color == null ? null : "#" + color.code();
        }

        @Override
        public Color convertToEntityAttribute(String text) {
            return text == null ? null : new Color(Integer.parseInt(text.substring(1)));
        }
    }

    @Converter
    static class Reversed implements AttributeConverter<String, String> {
        @Override
        public String convertToDatabaseColumn(String text) {
            return new StringBuilder(text).reverse().toString();
        }

        @Override
        public String convertToEntityAttribute(String text) {
            return convertToDatabaseColumn(text);
        }
    }

    @MappedSuperclass
    abstract static class Tagged<T> {
        @ElementCollection
        List<T> tags = new ArrayList<>();
    }

    @Embeddable
    static class Box {
        int size;
        @ElementCollection
        @CollectionTable(name = "box_colors")
        Set<Color> colors = new HashSet<>();
    }

    @Embeddable
    static class Inner {
        String a;
    }

    @Embeddable
    static class Outer {
        @Embedded
        Inner inner = new Inner();
        long b;

        static Outer of(String a, long b) {
            Outer outer = new Outer();
            outer.inner.a = a;
            outer.b = b;
            return outer;
        }
    }

    @Entity
    static class Thing extends Tagged<Integer> {
        @Id
        int id;
        Box box;
        @ElementCollection
        @AttributeOverride(name = "inner.a", column = @Column(name = "first"))
        List<Outer> outers = new ArrayList<>();
        @ElementCollection
        @Convert(converter = Reversed.class, attributeName = "value")
        @MapKeyTemporal(TemporalType.DATE)
        Map<Date, String> days = new HashMap<>();
        @ElementCollection
        @OrderBy
        Set<Long> numbers = new HashSet<>();
        @ElementCollection
        List<byte[]> blobs = new ArrayList<>();
    }

    @Entity
    static class Guarded {
        private int id;
        private List<String> names = new ArrayList<>();

        @Id
        public int getId() {
            return id;
        }

        public void setId(int id) {
            this.id = id;
        }

        /** A getter that answers a copy. */
        @ElementCollection
        public List<String> getNames() {
            return Collections.unmodifiableList(new ArrayList<>(names));
        }

        public void setNames(List<String> names) {
            this.names = names == null ? new ArrayList<>() : new ArrayList<>(names);
        }
    }

    private Factory factory;

    @BeforeEach
    void open() {
        factory = Units.over("karzhoul:memory", Thing.class, Guarded.class, ColorConverter.class);
    }

    @AfterEach
    void close() {
        factory.close();
    }

    private void commit(Consumer<EntityManager> done) {
        try (EntityManager manager = factory.createEntityManager()) {
            manager.getTransaction().begin();
            done.accept(manager);
            manager.getTransaction().commit();
        }
    }

    private void store() {
        commit(manager -> {
            Thing thing = new Thing();
            thing.id = 1;
            thing.tags.addAll(List.of(3, 1, 2));
            thing.box = new Box();
            thing.box.size = 4;
            thing.box.colors.addAll(Set.of(new Color(7), new Color(8)));
            thing.outers.add(Outer.of("x", 1));
            thing.outers.add(Outer.of(null, 2));
            thing.days.put(new Date(0), "abc");
            thing.numbers.addAll(Set.of(30L, 10L, 20L));
            thing.blobs.add(new byte[] {1, 2});
            manager.persist(thing);
        });
    }

    @Test
    void theyStandInMappedSuperclassesAndEmbeddables() {
        store();
        commit(manager -> {
            Thing thing = manager.find(Thing.class, 1);
            assertEquals(List.of(3, 1, 2), thing.tags);
            assertEquals(Set.of(new Color(7), new Color(8)), thing.box.colors);
            assertEquals("x", thing.outers.get(0).inner.a);
            assertEquals(2, thing.outers.get(1).b);
            assertEquals("abc", thing.days.values().iterator().next());
            assertEquals(List.of(10L, 20L, 30L), List.copyOf(new ArrayList<>(thing.numbers)));
            thing.box.colors.remove(new Color(7));
            thing.outers.get(1).inner.a = "y";
            thing.blobs.get(0)[0] = 9;
            thing.days.replaceAll((day, text) -> text + "d");
        });
        commit(manager -> {
            Thing thing = manager.find(Thing.class, 1);
            assertEquals(Set.of(new Color(8)), thing.box.colors);
            assertEquals("y", thing.outers.get(1).inner.a);
            assertEquals(9, thing.blobs.get(0)[0]);
            assertEquals("abcd", thing.days.values().iterator().next());
            assertEquals(List.of(new Color(8)),
                manager.createQuery("SELECT c FROM Thing t JOIN t.box.colors c").getResultList());
            assertEquals(List.of(2L), manager.createQuery("SELECT o.b FROM Thing t JOIN t.outers o WHERE o.inner.a = 'y'")
                .getResultList());
            assertEquals(List.of("abcd"), manager.createQuery("SELECT d FROM Thing t JOIN t.days d WHERE d = 'abcd'")
                .getResultList());
        });
    }

    @Test
    void propertiesMayAnswerCopies() {
        commit(manager -> {
            Guarded guarded = new Guarded();
            guarded.setId(1);
            guarded.setNames(List.of("a", "b"));
            manager.persist(guarded);
        });
        commit(manager -> {
            Guarded guarded = manager.find(Guarded.class, 1);
            assertEquals(List.of("a", "b"), guarded.getNames());
            guarded.setNames(List.of("b", "c"));
        });
        commit(manager -> assertEquals(List.of("b", "c"), manager.find(Guarded.class, 1).getNames()));
        assertEquals(2, Units.rowsOfElements(factory));
    }

    @Test
    void theMetamodelTellsThemAndNoRows() {
        assertEquals(2, factory.getMetamodel().getEntities().size());
        EntityType<Thing> thing = factory.getMetamodel().entity(Thing.class);
        PluralAttribute<?, ?, ?> outers = (PluralAttribute<?, ?, ?>) thing.getAttribute("outers");
        assertEquals(PersistentAttributeType.ELEMENT_COLLECTION, outers.getPersistentAttributeType());
        assertTrue(outers.isCollection());
        assertFalse(outers.isAssociation());
        assertEquals(Outer.class, outers.getElementType().getJavaType());
        MapAttribute<?, ?, ?> days = (MapAttribute<?, ?, ?>) thing.getAttribute("days");
        assertEquals(Date.class, days.getKeyJavaType());
        assertEquals(String.class, days.getElementType().getJavaType());
        assertEquals(PluralAttribute.CollectionType.SET, thing.getSet("numbers", Long.class).getCollectionType());
        assertEquals(Integer.class, thing.getList("tags").getElementType().getJavaType());
    }

    @Test
    void criteriaAndGraphsKnowThem() {
        store();
        commit(manager -> {
            var builder = manager.getCriteriaBuilder();
            CriteriaQuery<Integer> query = builder.createQuery(Integer.class);
            Root<Thing> root = query.from(Thing.class);
            query.select(builder.size(root.<List<Integer>>get("tags")))
                .where(builder.isMember(2, root.<List<Integer>>get("tags")), builder.isNotEmpty(root.<Set<Long>>get("numbers")));
            assertEquals(List.of(3), manager.createQuery(query).getResultList());
            var graph = manager.createEntityGraph(Thing.class);
            graph.addAttributeNodes("tags", "days");
            manager.clear();
            Thing found = manager.find(Thing.class, 1, Map.of("jakarta.persistence.loadgraph", graph));
            assertTrue(factory.getPersistenceUnitUtil().isLoaded(found, "tags"));
            assertTrue(factory.getPersistenceUnitUtil().isLoaded(found, "days"));
            assertFalse(factory.getPersistenceUnitUtil().isLoaded(found, "numbers"));
        });
    }
}
