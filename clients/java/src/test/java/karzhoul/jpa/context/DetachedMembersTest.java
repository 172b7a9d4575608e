package karzhoul.jpa.context;

import static org.junit.jupiter.api.Assertions.assertEquals;
import static org.junit.jupiter.api.Assertions.assertFalse;
import static org.junit.jupiter.api.Assertions.assertNull;
import static org.junit.jupiter.api.Assertions.assertTrue;

import jakarta.persistence.CascadeType;
import jakarta.persistence.Entity;
import jakarta.persistence.EntityManager;
import jakarta.persistence.FetchType;
import jakarta.persistence.Id;
import jakarta.persistence.ManyToOne;
import jakarta.persistence.OneToMany;
import jakarta.persistence.Version;
import java.util.ArrayList;
import java.util.List;
import java.util.Map;
import java.util.function.BiConsumer;
import org.junit.jupiter.api.AfterEach;
import org.junit.jupiter.api.BeforeEach;
import org.junit.jupiter.params.ParameterizedTest;
import org.junit.jupiter.params.provider.EnumSource;

/** What was detached, and is led to by what is managed, keeps what the application gives it (chapter 3.2.7). */
class DetachedMembersTest {
    @Entity
    static class Parent {
        @Id long id;
        @Version int version;
        String name;
        @OneToMany(mappedBy = "parent") List<Child> plain = new ArrayList<>();
        @OneToMany(cascade = CascadeType.MERGE) List<Child> cascading = new ArrayList<>();
        @OneToMany(fetch = FetchType.EAGER) List<Child> eager = new ArrayList<>();
        @ManyToOne Child favourite;
    }

    @Entity
    static class Child {
        @Id long id;
        @Version int version;
        String name;
        @ManyToOne(fetch = FetchType.LAZY) Parent parent;
        @OneToMany(cascade = CascadeType.PERSIST) List<Toy> toys = new ArrayList<>();
    }

    @Entity
    static class Toy {
        @Id long id;
    }

    /** What is done while the parent leads to the detached child. */
    enum Done {
        FLUSH((manager, parent) -> manager.flush()),
        REFRESH((manager, parent) -> manager.refresh(parent)),
        REFRESH_BY_GRAPH((manager, parent) -> manager.refresh(parent, graph(manager))),
        MERGE((manager, parent) -> manager.merge(parent)),
        CHANGE_AND_MERGE((manager, parent) -> {
            parent.name = "other";
            manager.merge(parent);
        }),
        MERGE_A_COPY((manager, parent) -> {
            Parent copy = new Parent();
            copy.id = parent.id;
            copy.version = parent.version;
            copy.name = "copied";
            copy.plain = new ArrayList<>(parent.plain);
            copy.cascading = new ArrayList<>(parent.cascading);
            copy.eager = new ArrayList<>(parent.eager);
            copy.favourite = parent.favourite;
            manager.merge(copy);
        }),
        FIND_BY_GRAPH((manager, parent) -> manager.find(Parent.class, 1L, graph(manager))),
        FETCH((manager, parent) -> manager.createQuery("SELECT p FROM Parent p JOIN FETCH p.plain JOIN FETCH p.favourite",
            Parent.class).getResultList()),
        QUERY((manager, parent) -> manager.createQuery("SELECT c FROM Child c", Child.class).getResultList()),
        CLEAR_AND_FIND((manager, parent) -> {
            manager.clear();
            manager.find(Parent.class, 1L).plain.size();
        });

        private final BiConsumer<EntityManager, Parent> done;

        Done(BiConsumer<EntityManager, Parent> done) {
            this.done = done;
        }

        private static Map<String, Object> graph(EntityManager manager) {
            var graph = manager.createEntityGraph(Parent.class);
            graph.addAttributeNodes("plain", "cascading", "eager", "favourite");
            return Map.of("jakarta.persistence.fetchgraph", graph);
        }
    }

    private Factory factory;
    private EntityManager manager;

    @BeforeEach
    void open() {
        factory = Units.over("karzhoul:memory", Parent.class, Child.class, Toy.class);
        manager = factory.createEntityManager();
        manager.getTransaction().begin();
        Parent parent = new Parent();
        parent.id = 1;
        manager.persist(parent);
        for (int i = 1; i <= 2; i++) {
            Child child = new Child();
            child.id = i;
            child.name = "row";
            child.parent = parent;
            Toy toy = new Toy();
            toy.id = i;
            child.toys.add(toy);
            parent.plain.add(child);
            parent.cascading.add(child);
            parent.eager.add(child);
            parent.favourite = child;
            manager.persist(child);
        }
        manager.getTransaction().commit();
        manager.clear();
    }

    @AfterEach
    void close() {
        if (manager.getTransaction().isActive()) {
            manager.getTransaction().rollback();
        }
        factory.close();
    }

    private Child detach(Parent parent, boolean isRead) {
        if (isRead) {
            parent.plain.size();
            parent.cascading.size();
            parent.eager.size();
        }
        Child child = manager.find(Child.class, 2L);
        child.toys.size();
        manager.detach(child);
        child.name = "written";
        child.parent = null;
        child.toys.clear();
        return child;
    }

    private static void isAsWritten(Child child) {
        assertEquals("written", child.name);
        assertNull(child.parent);
        assertTrue(child.toys.isEmpty());
    }

    @ParameterizedTest
    @EnumSource(Done.class)
    void keepsWhatIsWritten(Done done) {
        for (boolean isActive : new boolean[] {true, false}) {
            for (boolean isRead : new boolean[] {true, false}) {
                if (!isActive && done == Done.FLUSH) {
                    continue;
                }
                manager.clear();
                if (isActive) {
                    manager.getTransaction().begin();
                }
                Parent parent = manager.find(Parent.class, 1L);
                Child child = detach(parent, isRead);
                done.done.accept(manager, parent);
                isAsWritten(child);
                assertFalse(manager.contains(child));
                if (manager.contains(parent)) {
                    parent.plain.size();
                    parent.cascading.size();
                    parent.eager.size();
                    manager.refresh(parent);
                    isAsWritten(child);
                }
                if (isActive) {
                    manager.flush();
                    isAsWritten(child);
                    manager.getTransaction().rollback();
                }
                isAsWritten(child);
            }
        }
    }
}
