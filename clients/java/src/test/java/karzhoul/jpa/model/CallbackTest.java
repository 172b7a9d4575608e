package karzhoul.jpa.model;

import static org.junit.jupiter.api.Assertions.assertEquals;
import static org.junit.jupiter.api.Assertions.assertFalse;
import static org.junit.jupiter.api.Assertions.assertSame;
import static org.junit.jupiter.api.Assertions.assertThrows;
import static org.junit.jupiter.api.Assertions.assertTrue;

import jakarta.persistence.Entity;
import jakarta.persistence.EntityListeners;
import jakarta.persistence.ExcludeSuperclassListeners;
import jakarta.persistence.Id;
import jakarta.persistence.MappedSuperclass;
import jakarta.persistence.PersistenceException;
import jakarta.persistence.PostLoad;
import jakarta.persistence.PostPersist;
import jakarta.persistence.PrePersist;
import jakarta.persistence.PreUpdate;
import java.io.IOException;
import java.util.ArrayList;
import java.util.List;
import karzhoul.jpa.model.Callbacks.Event;
import org.junit.jupiter.api.BeforeEach;
import org.junit.jupiter.api.Test;

/** Which callbacks run, and in which order (chapter 3.5, with its example). */
class CallbackTest {
    static final List<String> RAN = new ArrayList<>();

    @BeforeEach
    void nothingRan() {
        RAN.clear();
    }

    static class AnimalListener {
        private int heard;
        @PostPersist private void persisted(Object animal) { RAN.add("animal listener " + ++heard); }
    }

    static class PetListener {
        @PostPersist protected void persisted(Pet pet) { RAN.add("pet listener"); }
    }

    static class CatListener {
        @PostPersist void persisted(Object cat) { RAN.add("cat listener"); }
    }

    static class CatListener2 extends CatListener {
        @PostPersist void persistedToo(Object cat) { RAN.add("cat listener 2"); }
    }

    static class SiameseListener {
        @PostPersist void persisted(Object cat) { RAN.add("siamese listener"); }
    }

    @MappedSuperclass
    static class Being {
        @Id int id;
        @PostPersist private void own() { RAN.add("being"); }
    }

    @Entity
    @EntityListeners(AnimalListener.class)
    static class Animal extends Being {
        @PostPersist protected void animal() { RAN.add("animal"); }
        @PrePersist void before() { RAN.add("before animal"); }
        @PreUpdate void update() { RAN.add("update animal"); }
    }

    @Entity
    @EntityListeners(PetListener.class)
    static class Pet extends Animal {
        @Override @PrePersist void before() { RAN.add("before pet"); }
        @Override void update() { RAN.add("update pet"); }
    }

    @Entity
    @EntityListeners({CatListener.class, CatListener2.class})
    static class Cat extends Pet {
        @PostPersist @PostLoad void own() { RAN.add("cat"); }
    }

    @Entity
    @ExcludeSuperclassListeners
    @EntityListeners(SiameseListener.class)
    static class Siamese extends Cat {
        @PostPersist void siamese() { RAN.add("siamese"); }
    }

    @Entity
    static class Kitten extends Siamese {}

    private static UnitModel unit() {
        return ReaderTest.read(Animal.class, Pet.class, Cat.class, Siamese.class, Kitten.class);
    }

    private static List<String> ran(UnitModel unit, Class<?> javaClass, Event event) {
        RAN.clear();
        EntityModel entity = unit.of(javaClass);
        entity.callbacks().run(event, entity.newInstance());
        return List.copyOf(RAN);
    }

    @Test
    void listenersBeforeCallbacksAndSuperclassesFirst() {
        UnitModel unit = unit();
        assertEquals(List.of("animal listener 1", "pet listener", "cat listener", "cat listener", "cat listener 2", "being", "animal",
                "cat"), ran(unit, Cat.class, Event.PostPersist));
        assertEquals(List.of("animal listener 2", "being", "animal"), ran(unit, Animal.class, Event.PostPersist), "one instance a unit");
        assertEquals(List.of("animal listener 1", "being", "animal"), ran(unit(), Animal.class, Event.PostPersist));
    }

    @Test
    void superclassListenersAreLeftOutBelowToo() {
        UnitModel unit = unit();
        List<String> wanted = List.of("siamese listener", "being", "animal", "cat", "siamese");
        assertEquals(wanted, ran(unit, Siamese.class, Event.PostPersist));
        assertEquals(wanted, ran(unit, Kitten.class, Event.PostPersist));
    }

    @Test
    void anOverriddenCallbackRunsOnce() {
        UnitModel unit = unit();
        assertEquals(List.of("before pet"), ran(unit, Cat.class, Event.PrePersist));
        assertEquals(List.of("before animal"), ran(unit, Animal.class, Event.PrePersist));
        assertEquals(List.of("update pet"), ran(unit, Pet.class, Event.PreUpdate));
    }

    @Test
    void whatIsHeard() {
        UnitModel unit = unit();
        assertTrue(unit.of(Cat.class).callbacks().hears(Event.PostLoad));
        assertFalse(unit.of(Animal.class).callbacks().hears(Event.PostLoad));
        assertEquals(List.of("cat"), ran(unit, Cat.class, Event.PostLoad));
        assertEquals(List.of(), ran(unit, Animal.class, Event.PostLoad));
    }

    @Entity
    static class Throwing {
        static final IllegalStateException RAISED = new IllegalStateException();
        @Id int id;
        @PrePersist void raise() { throw RAISED; }
        @PreUpdate void checked() throws IOException { throw new IOException("no"); }
    }

    @Test
    void whatACallbackRaises() {
        EntityModel entity = ReaderTest.read(Throwing.class).of(Throwing.class);
        assertSame(Throwing.RAISED, assertThrows(IllegalStateException.class,
                () -> entity.callbacks().run(Event.PrePersist, new Throwing())));
        PersistenceException wrapped = assertThrows(PersistenceException.class,
                () -> entity.callbacks().run(Event.PreUpdate, new Throwing()));
        assertEquals(IOException.class, wrapped.getCause().getClass());
    }
}
