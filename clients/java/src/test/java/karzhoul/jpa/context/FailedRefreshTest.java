package karzhoul.jpa.context;

import static org.junit.jupiter.api.Assertions.assertEquals;
import static org.junit.jupiter.api.Assertions.assertInstanceOf;
import static org.junit.jupiter.api.Assertions.assertSame;
import static org.junit.jupiter.api.Assertions.assertThrows;
import static org.junit.jupiter.api.Assertions.assertTrue;

import jakarta.persistence.CascadeType;
import jakarta.persistence.ElementCollection;
import jakarta.persistence.Entity;
import jakarta.persistence.EntityManager;
import jakarta.persistence.EntityNotFoundException;
import jakarta.persistence.Id;
import jakarta.persistence.ManyToMany;
import jakarta.persistence.ManyToOne;
import jakarta.persistence.OptimisticLockException;
import jakarta.persistence.PostLoad;
import jakarta.persistence.RollbackException;
import jakarta.persistence.Version;
import java.util.ArrayList;
import java.util.Date;
import java.util.HashMap;
import java.util.List;
import java.util.Map;
import java.util.function.Consumer;
import org.junit.jupiter.api.AfterEach;
import org.junit.jupiter.api.BeforeEach;
import org.junit.jupiter.api.Test;
import org.junit.jupiter.params.ParameterizedTest;
import org.junit.jupiter.params.provider.ValueSource;

/** A refresh that fails (chapter 3.2.5) leaves the instance as it was, with what was changed, and managed. */
class FailedRefreshTest {
    private static long refused;

    @Entity
    static class Film {
        @Id long id;
        @Version int version;
        String title;
        Date shown;
        @ManyToOne(cascade = CascadeType.REFRESH) Film sequelOf;
        @ManyToMany List<Film> shorts = new ArrayList<>();
        @ElementCollection List<String> tags = new ArrayList<>();
        @ElementCollection Map<String, String> names = new HashMap<>();

        Film() {}

        Film(long id, Film sequelOf) {
            this.id = id;
            title = "film " + id;
            shown = new Date(id);
            this.sequelOf = sequelOf;
            tags.add("old");
        }

        @PostLoad
        void isLoaded() {
            if (id == refused) {
                throw new IllegalStateException("not today");
            }
        }

        String title() {
            return title;
        }
    }

    private Factory factory;
    private EntityManager manager;
    private Film film;

    @BeforeEach
    void fill() {
        refused = 0;
        factory = Units.over("karzhoul:memory", Film.class);
        other(it -> {
            Film first = new Film(1, null);
            it.persist(first);
            it.persist(new Film(2, first));
            it.persist(new Film(3, null));
        });
        manager = factory.createEntityManager();
        film = manager.find(Film.class, 2L);
    }

    @AfterEach
    void close() {
        refused = 0;
        factory.close();
    }

    private void other(Consumer<EntityManager> work) {
        try (EntityManager other = factory.createEntityManager()) {
            other.getTransaction().begin();
            work.accept(other);
            other.getTransaction().commit();
        }
    }

    private void change() {
        film.title = "mine";
        film.shown.setTime(20);
        film.shorts.add(manager.find(Film.class, 3L));
        film.tags.add("new");
        film.names.put("de", "Film");
        film.sequelOf.title = "first of mine";
    }

    private void isAsChanged(Film read) {
        assertEquals("mine", read.title);
        assertEquals(new Date(20), read.shown);
        assertEquals(List.of(3L), read.shorts.stream().map(it -> it.id).toList());
        assertEquals(List.of("old", "new"), List.copyOf(read.tags));
        assertEquals(Map.of("de", "Film"), Map.copyOf(read.names));
        assertEquals("first of mine", read.sequelOf.title);
    }

    private void commit() {
        manager.getTransaction().begin();
        manager.getTransaction().commit();
    }

    @ParameterizedTest
    @ValueSource(longs = {1, 2})
    void whatWasChangedIsStoredAfterIt(long failing) {
        change();
        Film first = film.sequelOf;
        refused = failing;
        assertThrows(IllegalStateException.class, () -> manager.refresh(film));
        refused = 0;
        isAsChanged(film);
        assertSame(first, film.sequelOf);
        assertTrue(manager.contains(film) && manager.contains(first));
        commit();
        assertEquals(1, film.version);
        other(it -> isAsChanged(it.find(Film.class, 2L)));
        manager.refresh(film);
        isAsChanged(film);
    }

    @Test
    void whatTheProgramWasToldOfIsToldAgain() {
        change();
        Film fourth = new Film(4, film);
        manager.persist(fourth);
        manager.remove(fourth);
        refused = 2;
        assertThrows(IllegalStateException.class, () -> manager.refresh(film));
        refused = 0;
        isAsChanged(film);
        commit();
        other(it -> isAsChanged(it.find(Film.class, 2L)));
    }

    @Test
    void whatAnotherCommitChangedIsStale() {
        change();
        other(it -> it.find(Film.class, 2L).title = "theirs");
        refused = 2;
        assertThrows(IllegalStateException.class, () -> manager.refresh(film));
        refused = 0;
        isAsChanged(film);
        assertEquals(0, film.version);
        RollbackException stale = assertThrows(RollbackException.class, this::commit);
        assertSame(film, assertInstanceOf(OptimisticLockException.class, stale.getCause()).getEntity());
    }

    @ParameterizedTest
    @ValueSource(longs = {0, 1, 2})
    void whatIsReadInTheEndIsTheRow(long failing) {
        change();
        other(it -> it.find(Film.class, 2L).title = "theirs");
        refused = failing;
        if (failing == 0) {
            manager.refresh(film);          // a second one goes on along the same relations
            change();
        } else {
            assertThrows(IllegalStateException.class, () -> manager.refresh(film));
        }
        refused = 0;
        manager.refresh(film);
        assertEquals("theirs", film.title);
        assertEquals(1, film.version);
        assertEquals(List.of("old"), List.copyOf(film.tags));
        assertEquals(Map.of(), Map.copyOf(film.names));
        assertEquals(List.of(), List.copyOf(film.shorts));
        assertEquals("film 1", film.sequelOf.title);
        commit();
        other(it -> assertEquals("theirs", it.find(Film.class, 2L).title));
    }

    @Test
    void inATransactionItCanOnlyRollBack() {
        manager.getTransaction().begin();
        change();
        manager.flush();
        film.title = "mine";
        refused = 2;
        assertThrows(IllegalStateException.class, () -> manager.refresh(film));
        isAsChanged(film);
        assertTrue(manager.contains(film));
        assertTrue(manager.getTransaction().getRollbackOnly());
        assertEquals("not today", assertThrows(RollbackException.class, () -> manager.getTransaction().commit()).getCause().getMessage());
        isAsChanged(film);
    }

    @Test
    void aRowThatIsGone() {
        change();
        other(it -> it.remove(it.find(Film.class, 2L)));
        for (int time = 0; time < 2; time++) {
            EntityNotFoundException gone = assertThrows(EntityNotFoundException.class, () -> manager.refresh(film));
            assertEquals("EntityNotFound, Film 2: there is no row of this identity", gone.getMessage());
            isAsChanged(film);
            assertTrue(manager.contains(film));
        }
        assertInstanceOf(OptimisticLockException.class, assertThrows(RollbackException.class, this::commit).getCause());
    }

    @Test
    void aProxyWhoseFieldsWereWritten() {
        Film proxy = manager.getReference(Film.class, 3L);
        proxy.title = "written";
        refused = 3;
        assertThrows(IllegalStateException.class, () -> manager.refresh(proxy));
        refused = 0;
        assertEquals("written", proxy.title);
        commit();
        other(it -> assertEquals("written", it.find(Film.class, 3L).title));
    }

    @Test
    void aProxyWithoutARow() {
        Film proxy = manager.getReference(Film.class, 99L);
        proxy.title = "written";
        assertThrows(EntityNotFoundException.class, () -> manager.refresh(proxy));
        assertEquals("written", proxy.title);
        RollbackException refused = assertThrows(RollbackException.class, this::commit);
        assertEquals("EntityNotFound, Film 99, whose title was written: there is no such row", refused.getCause().getMessage());
    }
}
