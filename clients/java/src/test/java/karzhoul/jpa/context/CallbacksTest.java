package karzhoul.jpa.context;

import static org.junit.jupiter.api.Assertions.assertEquals;
import static org.junit.jupiter.api.Assertions.assertFalse;
import static org.junit.jupiter.api.Assertions.assertNotNull;
import static org.junit.jupiter.api.Assertions.assertNull;
import static org.junit.jupiter.api.Assertions.assertSame;
import static org.junit.jupiter.api.Assertions.assertThrows;
import static org.junit.jupiter.api.Assertions.assertTrue;

import jakarta.persistence.PersistenceException;
import jakarta.persistence.RollbackException;
import java.util.List;
import karzhoul.jpa.shop.Audit;
import karzhoul.jpa.shop.Order;
import karzhoul.jpa.shop.Person;
import karzhoul.jpa.shop.Tag;
import org.junit.jupiter.api.Test;

/** Callbacks (chapter 3.5): each event in its order, and what callbacks may do. */
class CallbacksTest extends Tried {
    @Test
    void eventsInTheirOrder() {
        Person ada = new Person("Ada");
        manager.getTransaction().begin();
        manager.persist(ada);
        assertEquals(List.of("PrePersist Person Ada"), Audit.told());
        manager.flush();
        assertEquals(List.of("PostPersist Person Ada"), Audit.told());
        ada.setName("Bea");
        manager.getTransaction().commit();
        assertEquals(List.of("PreUpdate Person Bea", "PostUpdate Person Bea"), Audit.told());
        manager.clear();
        Person found = manager.find(Person.class, 1L);
        assertEquals(List.of("PostLoad Person Bea"), Audit.told());
        assertEquals("created", found.getCreated());
        assertEquals("updated", found.getUpdated());
        manager.refresh(found);
        assertEquals(List.of("PostLoad Person Bea"), Audit.told());
        manager.getTransaction().begin();
        manager.remove(found);
        assertEquals(List.of("PreRemove Person Bea"), Audit.told());
        manager.getTransaction().commit();
        assertEquals(List.of("PostRemove Person Bea"), Audit.told());
    }

    @Test
    void whatChangesBetweenPersistAndCommitHearsNoPreUpdate() {
        Person ada = new Person("Ada");
        commit(() -> {
            manager.persist(ada);
            ada.setName("Bea");
        });
        assertEquals(List.of("PrePersist Person Ada", "PostPersist Person Bea"), Audit.told());
    }

    @Test
    void whatIsNotChangedHearsNothing() {
        store(new Person("Ada"));
        Person ada = manager.find(Person.class, 1L);
        Audit.told();
        commit(() -> ada.setName("Ada"));
        assertEquals(List.of(), Audit.told());
        assertEquals(0, ada.getVersion());
    }

    @Test
    void prePersistGivesTheKey() {
        Tag tag = new Tag(null);
        commit(() -> manager.persist(tag));
        assertEquals("made", tag.getCode());
        assertSame(tag, manager.find(Tag.class, "made"));
    }

    @Test
    void prePersistGivesTheKeyOfWhatAFlushReaches() {
        store(new Person("Ada"));
        Person ada = manager.find(Person.class, 1L);
        commit(() -> ada.getTags().add(new Tag(null)));
        assertNotNull(read(other -> other.find(Tag.class, "made")));
    }

    @Test
    void prePersistAddsMembers() {
        Audit.also((event, entity) -> {
            if (event.equals("PrePersist") && entity instanceof Person person && person.getOrders().isEmpty()) {
                person.add(new Order(7, 7));
            }
        });
        commit(() -> manager.persist(new Person("Ada")));
        assertNotNull(read(other -> other.find(Order.class, 7L)));
    }

    @Test
    void preUpdateChangesWhatIsWritten() {
        store(new Person("Ada"));
        Person ada = manager.find(Person.class, 1L);
        commit(() -> ada.setActive(false));
        assertEquals("updated", read(other -> other.find(Person.class, 1L)).getUpdated());
    }

    @Test
    void preUpdateChangesOthersWhichHearTheirOwn() {
        store(new Person("Ada"), new Person("Bea"), new Person("Cy"));
        List<Person> persons = List.of(manager.find(Person.class, 1L), manager.find(Person.class, 2L),
            manager.find(Person.class, 3L));
        Audit.told();
        Audit.also((event, entity) -> {
            if (event.equals("PreUpdate") && entity == persons.get(1)) {
                persons.get(0).setMood(Person.Mood.SAD);
                persons.get(2).setMood(Person.Mood.GLAD);
            }
        });
        commit(() -> persons.get(1).setName("Bee"));
        List<String> told = Audit.told();
        for (String name : List.of("Ada", "Bee", "Cy")) {
            assertEquals(1, told.stream().filter(("PreUpdate Person " + name)::equals).count(), told.toString());
            assertEquals(1, told.stream().filter(("PostUpdate Person " + name)::equals).count(), told.toString());
        }
        assertEquals(Person.Mood.SAD, read(other -> other.find(Person.class, 1L)).getMood());
        assertEquals(Person.Mood.GLAD, read(other -> other.find(Person.class, 3L)).getMood());
    }

    @Test
    void callbacksThatSetEachOtherOffForEverAreRefused() {
        Audit.also((event, entity) -> {
            if (event.equals("PrePersist") && entity instanceof Person person && person.getName().length() < 500) {
                manager.persist(new Person(person.getName() + "x"));
            }
        });
        manager.getTransaction().begin();
        Person ada = new Person("Ada");
        try {
            manager.persist(ada);
            manager.getTransaction().commit();
        } catch (PersistenceException | StackOverflowError e) {
            assertTrue(String.valueOf(e.getMessage()).length() > 0);
        }
    }

    @Test
    void aCallbackThatThrowsBeforeTheWriteGivesTheCommitUp() {
        store(new Person("Ada"));
        Person ada = manager.find(Person.class, 1L);
        Audit.also((event, entity) -> {
            if (event.equals("PreUpdate")) {
                throw new IllegalStateException("not today");
            }
        });
        manager.getTransaction().begin();
        ada.setName("Bea");
        RollbackException refused = assertThrows(RollbackException.class, () -> manager.getTransaction().commit());
        assertEquals("not today", refused.getCause().getMessage());
        assertFalse(manager.getTransaction().isActive());
        assertEquals("Bea", ada.getName(), "the field stays as it was left");
        assertEquals("Ada", read(other -> other.find(Person.class, 1L)).getName());
    }

    @Test
    void aCallbackThatThrowsAfterTheWriteRollsItBack() {
        Audit.also((event, entity) -> {
            if (event.equals("PostPersist")) {
                throw new IllegalStateException("not today");
            }
        });
        manager.getTransaction().begin();
        manager.persist(new Person("Ada"));
        assertThrows(RollbackException.class, () -> manager.getTransaction().commit());
        assertNull(read(other -> other.find(Person.class, 1L)));
    }

    @Test
    void anOrphanThatWasNotReadHearsPreRemoveAndPostRemove() {
        Person ada = new Person("Ada");
        store(ada.add(new Order(1, 1)));
        Person found = manager.find(Person.class, 1L);
        commit(() -> found.getOrders().clear());
        assertNull(read(other -> other.find(Order.class, 1L)));
    }

    @Test
    void removeTellsPreRemoveOfWhatItReaches() {
        Person ada = new Person("Ada");
        store(ada.add(new Order(1, 1)).add(new Order(2, 2)));
        Person found = manager.find(Person.class, 1L);
        Audit.told();
        manager.getTransaction().begin();
        manager.remove(found);
        assertNull(manager.find(Order.class, 1L), "it is removed, though nobody had read it");
        assertEquals(List.of("PreRemove Person Ada"), Audit.told());
        manager.getTransaction().commit();
        assertEquals(List.of("PostRemove Person Ada"), Audit.told());
    }

    @Test
    void anOrphanThatMovesIsRemovedByOneFlushAndPersistedByTheNext() {
        store(new Person("Ada").add(new Order(1, 1)), new Person("Bea"));
        Person ada = manager.find(Person.class, 1L);
        Person bea = manager.find(Person.class, 2L);
        commit(() -> {
            Order moved = ada.getOrders().remove(0);
            bea.add(moved);
            manager.flush();
            manager.flush();
        });
        assertEquals(List.of(1L), read(other -> other.find(Person.class, 2L).getOrders().stream()
            .map(Order::getNumber).toList()));
    }

    @Test
    void mergeTellsPrePersistOfNewImagesOnce() {
        Person ada = new Person("Ada").add(new Order(1, 1));
        manager.getTransaction().begin();
        Person merged = manager.merge(ada);
        assertEquals(List.of("PrePersist Person Ada"), Audit.told());
        assertEquals("created", merged.getCreated());
        assertNull(ada.getCreated(), "the source hears nothing");
        manager.getTransaction().commit();
        assertEquals(List.of("PostPersist Person Ada"), Audit.told());
        assertEquals("created", read(other -> other.find(Person.class, 1L)).getCreated());
    }

    @Test
    void postLoadRunsAfterAllValuesAreIn() {
        store(new Person("Ada").add(new Order(1, 1)));
        Audit.also((event, entity) -> {
            if (event.equals("PostLoad")) {
                assertEquals(1, ((Person) entity).getOrders().size());
            }
        });
        assertNotNull(manager.find(Person.class, 1L));
    }
}
