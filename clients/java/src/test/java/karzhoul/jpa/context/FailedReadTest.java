package karzhoul.jpa.context;

import static org.junit.jupiter.api.Assertions.assertEquals;
import static org.junit.jupiter.api.Assertions.assertNotNull;
import static org.junit.jupiter.api.Assertions.assertSame;
import static org.junit.jupiter.api.Assertions.assertThrows;
import static org.junit.jupiter.api.Assertions.assertTrue;

import jakarta.persistence.AttributeConverter;
import jakarta.persistence.Convert;
import jakarta.persistence.Entity;
import jakarta.persistence.EntityManager;
import jakarta.persistence.FetchType;
import jakarta.persistence.Id;
import jakarta.persistence.ManyToOne;
import jakarta.persistence.OneToMany;
import jakarta.persistence.PostLoad;
import jakarta.persistence.Transient;
import java.nio.file.Path;
import java.util.ArrayList;
import java.util.List;
import java.util.function.BiFunction;
import org.junit.jupiter.api.AfterEach;
import org.junit.jupiter.api.BeforeEach;
import org.junit.jupiter.api.Test;
import org.junit.jupiter.api.io.TempDir;
import org.junit.jupiter.params.ParameterizedTest;
import org.junit.jupiter.params.provider.EnumSource;

/** A reading that fails in its middle, outside of a transaction: nothing half read stays, and the next call works. */
class FailedReadTest {
    /** What fails. */
    enum Fault { POST_LOAD, CONVERTER, PROGRAM }

    /** Fails at the so manieth call of what is to fail. */
    private static final class Trap {
        private static Fault fault;
        private static int left;
        private static Runnable kill;
        private static final List<Object> SEEN = new ArrayList<>();

        static void met(Fault at) {
            if (at == (fault == Fault.PROGRAM ? Fault.CONVERTER : fault) && --left == 0) {
                if (fault == Fault.PROGRAM) {
                    kill.run();
                } else {
                    throw new IllegalStateException("not today");
                }
            }
        }
    }

    /** A text, of which reading may fail. */
    static class Words implements AttributeConverter<String, String> {
        @Override
        public String convertToDatabaseColumn(String word) {
            return word;
        }

        @Override
        public String convertToEntityAttribute(String column) {
            Trap.met(Fault.CONVERTER);
            return column;
        }
    }

    @Entity
    static class Box {
        @Id long id;
        @Convert(converter = Words.class) String name;
        @OneToMany(mappedBy = "box") List<Thing> things = new ArrayList<>();
        @OneToMany(fetch = FetchType.EAGER) List<Thing> spare = new ArrayList<>();
        @Transient int loads;

        @PostLoad
        void isLoaded() {
            loads++;
            Trap.SEEN.add(this);
            Trap.met(Fault.POST_LOAD);
        }

        public String getName() {
            return name;
        }
    }

    @Entity
    static class Thing {
        @Id long id;
        @Convert(converter = Words.class) String name;
        String note;
        @ManyToOne(fetch = FetchType.LAZY) Box box;
        @ManyToOne Label label;
        @Transient int loads;

        @PostLoad
        void isLoaded() {
            loads++;
            box.getName();
            Trap.SEEN.add(this);
            Trap.met(Fault.POST_LOAD);
        }

        public String getName() {
            return name;
        }
    }

    @Entity
    static class Label {
        @Id long id;
        @Convert(converter = Words.class) String name;
        @Transient int loads;

        @PostLoad
        void isLoaded() {
            loads++;
            Trap.SEEN.add(this);
            Trap.met(Fault.POST_LOAD);
        }
    }

    /** What reads; handed the manager, and a box that is managed and whose list nobody has read. */
    enum Read {
        QUERY((manager, box) -> manager.createQuery("SELECT t FROM Thing t ORDER BY t.id", Thing.class).getResultList()),
        STREAM((manager, box) -> manager.createQuery("SELECT t FROM Thing t ORDER BY t.id", Thing.class).getResultStream().toList()),
        FETCH((manager, box) -> manager.createQuery("SELECT b FROM Box b LEFT JOIN FETCH b.things ORDER BY b.id",
            Box.class).getResultList()),
        FIND((manager, box) -> List.of(manager.find(Box.class, 1L))),
        LIST((manager, box) -> List.copyOf(box.things)),
        PROXY((manager, box) -> {
            Thing thing = manager.getReference(Thing.class, 2L);
            thing.getName();
            return List.of(thing);
        });

        private final BiFunction<EntityManager, Box, List<?>> read;

        Read(BiFunction<EntityManager, Box, List<?>> read) {
            this.read = read;
        }
    }

    @TempDir Path folder;
    private Factory factory;

    @BeforeEach
    void open() {
        Trap.fault = null;
        factory = Units.over("karzhoul:" + folder.resolve("a.db"), Box.class, Thing.class, Label.class);
        Trap.kill = () -> {
            ProcessHandle program = ProcessHandle.of(factory.pool().engine().pid()).orElseThrow();
            program.destroyForcibly();
            program.onExit().join();
        };
        try (EntityManager manager = factory.createEntityManager()) {
            manager.getTransaction().begin();
            for (long id : new long[] {1, 9}) {
                Box box = new Box();
                box.id = id;
                box.name = "box " + id;
                manager.persist(box);
                for (long at = id; at < id + 2; at++) {
                    Thing thing = new Thing();
                    thing.id = at;
                    thing.name = "thing " + at;
                    thing.box = box;
                    thing.label = new Label();
                    thing.label.id = at;
                    thing.label.name = "label " + at;
                    manager.persist(thing.label);
                    manager.persist(thing);
                    box.things.add(thing);
                }
                box.spare.add(box.things.get(0));
            }
            manager.getTransaction().commit();
        }
    }

    @AfterEach
    void close() {
        Trap.fault = null;
        factory.close();
    }

    /** All that is read, through its relations; and that there is one instance of each. */
    private static String content(EntityManager manager, List<?> read) {
        StringBuilder told = new StringBuilder();
        for (Object one : read) {
            assertTrue(manager.contains(one));
            if (one instanceof Box box) {
                told.append(box.getName()).append(' ').append(box.loads > 0).append(content(manager, box.things))
                    .append(box.spare.get(0).name).append("; ");
            } else {
                Thing thing = (Thing) one;
                told.append(thing.getName()).append(' ').append(thing.loads > 0).append(' ').append(thing.label.name)
                    .append(thing.label.loads > 0).append(thing.box.getName()).append(thing.box.loads > 0).append("; ");
                assertSame(thing.box, manager.find(Box.class, thing.box.id));
                assertSame(thing, manager.find(Thing.class, thing.id));
                assertTrue(thing.box.things.contains(thing));
            }
        }
        return told.toString();
    }

    private static void arm(Fault fault, int at) {
        Trap.SEEN.clear();
        Trap.left = at;
        Trap.fault = fault;
    }

    private boolean isTried(Read read, Fault fault, int at, String expected) {
        try (EntityManager manager = factory.createEntityManager()) {
            Box box = manager.find(Box.class, 9L);
            box = read == Read.FIND || read == Read.QUERY ? cleared(manager) : box;
            Box kept = box;
            arm(fault, at);
            RuntimeException failed = null;
            try {
                read.read.apply(manager, box);
            } catch (RuntimeException e) {
                failed = e;
            }
            boolean isMet = Trap.left <= 0;
            Trap.fault = null;
            if (failed != null && read != Read.FETCH) {         // whose boxes are whole before their lists are read
                List<Object> stays = List.copyOf(Trap.SEEN).stream().filter(each -> each != kept && manager.contains(each)
                    && factory.getPersistenceUnitUtil().isLoaded(each)).toList();
                assertTrue(stays.isEmpty(), () -> stays + " stay");
            }
            assertEquals(expected, content(manager, read.read.apply(manager, box)), fault + " " + at);
            manager.getTransaction().begin();
            manager.find(Thing.class, 1L).note = fault + " " + at;
            manager.getTransaction().commit();
            return isMet;
        }
    }

    private static Box cleared(EntityManager manager) {
        manager.clear();
        return null;
    }

    @ParameterizedTest
    @EnumSource(Read.class)
    void nothingHalfReadStays(Read read) {
        String expected;
        try (EntityManager manager = factory.createEntityManager()) {
            expected = content(manager, read.read.apply(manager, manager.find(Box.class, 9L)));
        }
        for (Fault fault : Fault.values()) {
            int at = 1;
            while (isTried(read, fault, at, expected)) {
                at++;
            }
            assertTrue(at > 1);
        }
    }

    @Test
    void whatWasWrittenToAProxyIsStillThere() {
        try (EntityManager manager = factory.createEntityManager()) {
            Thing proxy = manager.getReference(Thing.class, 2L);
            proxy.note = "written";
            arm(Fault.POST_LOAD, 1);
            assertThrows(IllegalStateException.class, proxy::getName);
            Trap.fault = null;
            assertEquals("written", proxy.note);
            assertTrue(manager.contains(proxy));
            manager.getTransaction().begin();
            manager.getTransaction().commit();
            assertEquals("thing 2", proxy.getName());
        }
        try (EntityManager other = factory.createEntityManager()) {
            assertEquals("written", other.find(Thing.class, 2L).note);
        }
    }

    @Test
    void aRefreshLeadsWhereItLed() {
        try (EntityManager manager = factory.createEntityManager()) {
            Thing thing = manager.find(Thing.class, 1L);
            Label before = thing.label;
            try (EntityManager other = factory.createEntityManager()) {
                other.getTransaction().begin();
                other.find(Thing.class, 1L).label = other.find(Label.class, 2L);
                other.getTransaction().commit();
            }
            arm(Fault.POST_LOAD, 1);
            assertThrows(IllegalStateException.class, () -> manager.refresh(thing));
            Trap.fault = null;
            assertTrue(manager.contains(thing.label));
            assertSame(before, thing.label);
            manager.refresh(thing);
            assertEquals("label 2", thing.label.name);
            assertSame(thing.label, manager.find(Label.class, 2L));
            assertNotNull(thing.box);
        }
    }
}
