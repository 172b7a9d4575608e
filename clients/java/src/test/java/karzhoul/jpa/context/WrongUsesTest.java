package karzhoul.jpa.context;

import static org.junit.jupiter.api.Assertions.assertEquals;
import static org.junit.jupiter.api.Assertions.fail;

import jakarta.persistence.CascadeType;
import jakarta.persistence.Column;
import jakarta.persistence.ElementCollection;
import jakarta.persistence.Embeddable;
import jakarta.persistence.Embedded;
import jakarta.persistence.EmbeddedId;
import jakarta.persistence.Entity;
import jakarta.persistence.EntityExistsException;
import jakarta.persistence.EntityManager;
import jakarta.persistence.EntityNotFoundException;
import jakarta.persistence.GeneratedValue;
import jakarta.persistence.Id;
import jakarta.persistence.LockModeType;
import jakarta.persistence.ManyToMany;
import jakarta.persistence.ManyToOne;
import jakarta.persistence.OneToMany;
import jakarta.persistence.OneToOne;
import jakarta.persistence.OptimisticLockException;
import jakarta.persistence.PersistenceException;
import jakarta.persistence.RollbackException;
import jakarta.persistence.TransactionRequiredException;
import jakarta.persistence.Version;
import java.io.Serializable;
import java.math.BigDecimal;
import java.util.ArrayList;
import java.util.Collection;
import java.util.HashMap;
import java.util.List;
import java.util.Map;
import java.util.function.Consumer;
import java.util.stream.Stream;
import org.junit.jupiter.api.AfterAll;
import org.junit.jupiter.api.BeforeAll;
import org.junit.jupiter.params.ParameterizedTest;
import org.junit.jupiter.params.provider.MethodSource;

/**
 * Wrong uses: each is refused by the standard's exception, at once or as the cause of the commit's RollbackException,
 * with words that name the entity, its key, the attribute and the value, as far as there are any.
 */
class WrongUsesTest {
    enum Mood { GLAD, SAD }

    @Entity(name = "Author")
    static class Author {
        @Id String name;
        @Version int version;
        @Column(nullable = false) String land = "CH";
        @Column(length = 5) String code;
        @Column(unique = true) String mail;
        @Column(precision = 4, scale = 2) BigDecimal rate;
        int age;
        Mood mood;
        @Embedded Town home = new Town();
        @ManyToOne Author mentor;
        @ManyToOne Book favourite;
        @OneToOne Prize best;
        @ManyToMany List<Prize> prizes = new ArrayList<>();
        @ManyToMany(cascade = CascadeType.PERSIST) List<Prize> won = new ArrayList<>();
        @OneToMany(mappedBy = "author", cascade = CascadeType.ALL, orphanRemoval = true) List<Book> books = new ArrayList<>();
        @ElementCollection List<Town> towns = new ArrayList<>();
        @ElementCollection Map<String, String> notes = new HashMap<>();

        Author() {}

        Author(String name) {
            this.name = name;
        }
    }

    @Embeddable
    static class Town {
        @Column(length = 3) String town;

        Town() {}

        Town(String town) {
            this.town = town;
        }
    }

    @Entity(name = "Prize")
    static class Prize {
        @Id @GeneratedValue Long id;
        @ManyToOne(optional = false) Author giver;

        Prize() {}

        Prize(Author giver) {
            this.giver = giver;
        }
    }

    @Entity(name = "Book")
    static class Book {
        @EmbeddedId Isbn id;
        @ManyToOne Author author;
        String title;

        Book() {}

        Book(int number, Author author) {
            id = new Isbn();
            id.number = number;
            this.author = author;
        }
    }

    @Embeddable
    static class Isbn implements Serializable {
        String land = "ch";
        int number;

        @Override
        public boolean equals(Object other) {
            return other instanceof Isbn that && land.equals(that.land) && number == that.number;
        }

        @Override
        public int hashCode() {
            return number;
        }
    }

    private static Factory factory;

    @BeforeAll
    static void fill() {
        factory = Units.over("karzhoul:memory", Author.class, Town.class, Prize.class, Book.class, Isbn.class);
        committed(manager -> {
            Author ada = new Author("ada");
            ada.mail = "a@x";
            ada.best = new Prize(ada);
            ada.prizes.add(ada.best);
            ada.books.add(new Book(1, ada));
            manager.persist(ada.best);
            manager.persist(ada);
            manager.persist(with(new Author("bob"), bob -> bob.favourite = ada.books.get(0)));
        });
    }

    @AfterAll
    static void close() {
        factory.close();
    }

    private static void committed(Consumer<EntityManager> work) {
        try (EntityManager manager = factory.createEntityManager()) {
            manager.getTransaction().begin();
            work.accept(manager);
            manager.getTransaction().commit();
        }
    }

    /** What was done wrong, in a transaction that is committed then, and what the refusal begins with. */
    record Use(String what, Class<? extends RuntimeException> raised, String words, Consumer<EntityManager> work) {
        @Override
        public String toString() {
            return what;
        }
    }

    private static Use use(String what, Class<? extends RuntimeException> raised, String words, Consumer<EntityManager> work) {
        return new Use(what, raised, words, work);
    }

    @ParameterizedTest
    @MethodSource({"ofValues", "ofReferences", "ofStates", "ofKeys", "ofConflicts", "ofLocks", "ofQueries"})
    void isRefused(Use use) {
        RuntimeException raised = null;
        try (EntityManager manager = factory.createEntityManager()) {
            manager.getTransaction().begin();
            try {
                use.work.accept(manager);
                manager.getTransaction().commit();
                fail("nothing was refused");
            } catch (RuntimeException e) {
                raised = e instanceof RollbackException ? (RuntimeException) e.getCause() : e;
            }
            if (manager.getTransaction().isActive()) {
                manager.getTransaction().rollback();
            }
        }
        String said = raised.getMessage();
        assertEquals(use.words, said.substring(0, Math.min(said.length(), use.words.length())), said);
        assertEquals(use.raised, raised.getClass().getPackageName().startsWith("karzhoul") ? raised.getClass().getSuperclass()
            : raised.getClass());
    }

    private static Author ada(EntityManager manager) {
        return manager.find(Author.class, "ada");
    }

    private static <T> T detached(Class<T> entity, Object key) {
        try (EntityManager manager = factory.createEntityManager()) {
            return manager.find(entity, key);
        }
    }

    private static Author with(Author author, Consumer<Author> change) {
        change.accept(author);
        return author;
    }

    @SuppressWarnings("unchecked")
    private static void add(Collection<?> members, Object member) {
        ((Collection<Object>) members).add(member);
    }

    static Stream<Use> ofValues() {
        Class<PersistenceException> raised = PersistenceException.class;
        String unset = ": a required attribute or relation is null: set it, or";
        return Stream.of(
            use("null", raised, "Persistence(null), Author ada.land" + unset, it -> ada(it).land = null),
            use("null of a new one", raised, "Persistence(null), Author new.land" + unset,
                it -> it.persist(with(new Author("new"), a -> a.land = null))),
            use("null that is merged", raised, "Persistence(null), Author ada.land" + unset,
                it -> it.merge(with(detached(Author.class, "ada"), a -> a.land = null))),
            use("no required relation", raised, "Persistence(null), Prize 1.giver" + unset, it -> it.find(Prize.class, 1L).giver = null),
            use("unique", raised, "Persistence(unique), Author bob: it would have the mail a@x of Author ada, and that is unique",
                it -> it.find(Author.class, "bob").mail = "a@x"),
            use("unique of two new ones", raised, "Persistence(unique), Author c: it would have the mail c@x of Author d", it -> {
                it.persist(with(new Author("c"), a -> a.mail = "c@x"));
                it.persist(with(new Author("d"), a -> a.mail = "c@x"));
            }),
            use("one-to-one of a managed one", raised, "Persistence(unique), Author bob.best, which leads to Prize 1 as that of Author ada does: "
                + "two entities", it -> it.find(Author.class, "bob").best = ada(it).best),
            use("one-to-one of a row", raised, "Persistence(unique), Author new.best, which leads to Prize 1 as that of Author ada does: ",
                it -> it.persist(with(new Author("new"), a -> a.best = it.find(Prize.class, 1L)))),
            use("too long", raised, "Author ada.code can't be stored: \"123456\" can't be kept: it has 6 letters", it -> ada(it).code = "123456"),
            use("too long, embedded", raised, "Author ada.home.town can't be stored: \"Bern\"", it -> ada(it).home = new Town("Bern")),
            use("too long an element", raised, "Author ada.towns can't be stored: \"Bern\" can't be kept", it -> ada(it).towns.add(new Town("Bern"))),
            use("an element that is null", raised, "Author ada.towns has a member that is null", it -> ada(it).towns.add(null)),
            use("a key of a map that is null", raised, "Author ada.notes has a key that is null", it -> ada(it).notes.put(null, "x")),
            use("too many digits", raised, "Author ada.rate can't be stored: 100.5 can't be kept: it has 5 digits as it is kept, and @Column",
                it -> ada(it).rate = new BigDecimal("100.5")),
            use("too many places", raised, "Author ada.rate can't be stored: 1.005 can't be kept", it -> ada(it).rate = new BigDecimal("1.005")),
            use("beyond what is kept", raised, "Author ada.land can't be stored: the text has 70000 bytes", it -> ada(it).land = "x".repeat(70_000)));
    }

    static Stream<Use> ofReferences() {
        Class<IllegalStateException> state = IllegalStateException.class;
        String unstored = ": a relation that doesn't cascade PERSIST or MERGE leads to an entity that is new or removed: persist it first";
        String other = " has a member of ";
        return Stream.of(
            use("a new one", state, "IllegalState(reference), Author ada.mentor, which leads to a new Author" + unstored,
                it -> ada(it).mentor = new Author("new")),
            use("a new member", state, "IllegalState(reference), Author ada.prizes, which leads to a new Prize" + unstored,
                it -> ada(it).prizes.add(new Prize(ada(it)))),
            use("a removed one", state, "IllegalState(reference), Author ada.mentor, which leads to the removed Author bob" + unstored, it -> {
                ada(it).mentor = it.find(Author.class, "bob");
                it.remove(ada(it).mentor);
            }),
            use("what a row leads to is removed", PersistenceException.class, "Persistence(reference), Author ada.best, which leads to the"
                + " removed Prize 1: ", it -> it.remove(it.find(Prize.class, 1L))),
            use("what a row leads to is an orphan", PersistenceException.class, "Persistence(reference), Author bob.favourite, which leads to the"
                + " removed Book [ch, 1]: ", it -> ada(it).books.clear()),
            use("one whose row is gone", state, "IllegalState(reference), Author ada.prizes, which leads to Prize 99, which has no row" + unstored, it -> {
                Prize gone = new Prize(ada(it));
                gone.id = 99L;
                ada(it).prizes.add(gone);
            }),
            use("a reference to nothing", EntityNotFoundException.class, "EntityNotFound, Author none: there is no such row",
                it -> ada(it).mentor = it.getReference(Author.class, "none")),
            use("a detached one behind a cascade", EntityExistsException.class, "EntityExists: a detached Prize",
                it -> it.persist(with(new Author("new"), a -> a.won.add(detached(Prize.class, 1L))))),
            use("a detached one of a given key behind a cascade", EntityExistsException.class, "EntityExists, Book [ch, 1]: an object of this"
                + " identity", it -> it.find(Author.class, "bob").books.add(detached(Book.class, new Book(1, null).id))),
            use("a member that is null", PersistenceException.class, "Author ada.prizes has a member that is null", it -> ada(it).prizes.add(null)),
            use("a member that is no entity", IllegalArgumentException.class, "Author ada.prizes" + other + "java.lang.String, and its members"
                + " are of Prize: take it out", it -> add(ada(it).prizes, "text")),
            use("a member of another entity", IllegalArgumentException.class, "Author ada.prizes" + other + Author.class.getName() + ", and its",
                it -> add(ada(it).prizes, ada(it))),
            use("such a member behind a cascade", IllegalArgumentException.class, "a new Author.won" + other + "java.lang.String, and its members are of"
                + " Prize", it -> it.persist(with(new Author("new"), a -> add(a.won, "text")))),
            use("an element of another class", PersistenceException.class, "Author ada.notes can't be stored: a value of java.lang.Integer",
                it -> add(ada(it).notes)),
            use("what wasn't read before", PersistenceException.class, "Author ada.books wasn't read before its owner was detached: read it",
                it -> detached(Author.class, "ada").books.size()));
    }

    @SuppressWarnings("unchecked")
    private static void add(Map<?, ?> entries) {
        ((Map<Object, Object>) entries).put(1, 2);
    }

    static Stream<Use> ofStates() {
        Class<IllegalArgumentException> raised = IllegalArgumentException.class;
        String managed = ": only a managed instance can be ";
        return Stream.of(
            use("remove of a detached one", raised, "IllegalArgument(state), Author ada: a detached instance can't be removed; merge it first",
                it -> it.remove(detached(Author.class, "ada"))),
            use("refresh of a detached one", raised, "IllegalArgument(state), Author ada" + managed + "refreshed; find it, or merge it first",
                it -> it.refresh(detached(Author.class, "ada"))),
            use("refresh of a new one", raised, "IllegalArgument(state), a new Prize" + managed, it -> it.refresh(new Prize())),
            use("refresh of a removed one", raised, "IllegalArgument(state), the removed Author bob" + managed, it -> {
                Author bob = it.find(Author.class, "bob");
                it.remove(bob);
                it.refresh(bob);
            }),
            use("merge of a removed one", raised, "IllegalArgument(state), Author bob: a removed instance can't be merged", it -> {
                Author bob = it.find(Author.class, "bob");
                it.remove(bob);
                it.merge(bob);
            }),
            use("persist of a detached one", EntityExistsException.class, "EntityExists: a detached Prize", it -> it.persist(detached(Prize.class, 1L))),
            use("persist of no entity", raised, "java.lang.String is no entity class of this persistence unit", it -> it.persist("text")),
            use("persist of null", raised, "null is no entity", it -> it.persist(null)),
            use("find of no entity", raised, "java.lang.String is no entity class", it -> it.find(String.class, 1L)),
            use("no transaction", TransactionRequiredException.class, "no transaction is active: begin one", it -> {
                it.getTransaction().rollback();
                it.flush();
            }));
    }

    static Stream<Use> ofKeys() {
        Class<IllegalArgumentException> raised = IllegalArgumentException.class;
        return Stream.of(
            use("of another type", raised, "no key of Prize: the key is a value of java.lang.String, where one of java.lang.Long belongs",
                it -> it.find(Prize.class, "1")),
            use("null", raised, "no key of Prize: the key is null, where one of java.lang.Long belongs", it -> it.find(Prize.class, null)),
            use("a part that is null", raised, "no key of Book: the key's part id.land is null", it -> {
                Isbn key = new Isbn();
                key.land = null;
                it.find(Book.class, key);
            }),
            use("none", PersistenceException.class, "Persistence(key): part of the key of a new Author is null; set it before persist",
                it -> it.persist(new Author())),
            use("that of a row", EntityExistsException.class, "EntityExists, Author ada: an object of this identity is managed or stored"
                + " already, or the object is detached: merge it, or take another key", it -> it.persist(new Author("ada"))),
            use("that of a managed one", EntityExistsException.class, "EntityExists, Author ada: another instance of this key is managed", it -> {
                ada(it);
                it.persist(new Author("ada"));
            }),
            use("changed", PersistenceException.class, "the key of Author ada was changed: name is eve", it -> ada(it).name = "eve"),
            use("a reference to nothing that is looked at", EntityNotFoundException.class, "EntityNotFound, Author none: there is no such row",
                it -> it.refresh(it.getReference(Author.class, "none"))));
    }

    private static void older() {
        committed(it -> ada(it).age++);
    }

    static Stream<Use> ofConflicts() {
        Class<OptimisticLockException> raised = OptimisticLockException.class;
        String stale = "OptimisticLock, Author ada: another commit changed or removed the row meanwhile; find it again";
        return Stream.of(
            use("changed", raised, stale, it -> {
                ada(it).age += 2;
                older();
            }),
            use("merged", raised, stale, it -> {
                Author ada = detached(Author.class, "ada");
                older();
                it.merge(ada);
            }),
            use("locked", raised, stale, it -> {
                it.lock(ada(it), LockModeType.OPTIMISTIC);
                older();
            }),
            use("locked, and its version raised", raised, stale, it -> {
                it.lock(ada(it), LockModeType.OPTIMISTIC_FORCE_INCREMENT);
                older();
            }),
            use("locked, its version raised, and flushed", raised, stale, it -> {
                it.lock(ada(it), LockModeType.OPTIMISTIC_FORCE_INCREMENT);
                it.flush();
                older();
            }),
            use("a version that is written", PersistenceException.class, "the version of Author ada was changed: version is 70, and its row has",
                it -> ada(it).version = 70));
    }

    static Stream<Use> ofLocks() {
        return Stream.of(
            use("of a detached one", IllegalArgumentException.class, "IllegalArgument(state), Author ada: only a managed instance can be locked",
                it -> it.lock(detached(Author.class, "ada"), LockModeType.OPTIMISTIC)),
            use("asked of a detached one", IllegalArgumentException.class, "IllegalArgument(state), Author ada: only a managed instance can be asked",
                it -> it.getLockMode(detached(Author.class, "ada"))),
            use("of null", IllegalArgumentException.class, "Author ada can't be locked: the lock mode is null; NONE is no lock",
                it -> it.lock(ada(it), null)),
            use("of a query's null", IllegalArgumentException.class, "the lock mode is null; NONE is no lock: SELECT a FROM Author a",
                it -> it.createQuery("SELECT a FROM Author a").setLockMode(null)),
            use("that keeps others out", PersistenceException.class, "Author ada can't be locked PESSIMISTIC_WRITE: there are no pessimistic locks",
                it -> it.lock(ada(it), LockModeType.PESSIMISTIC_WRITE)),
            use("without a version", PersistenceException.class, "Persistence(version), Prize 1: the entity has no version, which @Version",
                it -> it.find(Prize.class, 1L, LockModeType.OPTIMISTIC)));
    }

    static Stream<Use> ofQueries() {
        Class<IllegalArgumentException> raised = IllegalArgumentException.class;
        String named = "SELECT a FROM Author a WHERE a.land = :n";
        String upper = "SELECT a FROM Author a WHERE UPPER(a.land) IN :n";
        String long70 = "x".repeat(70_000);
        return Stream.of(
            use("a parameter of another type", raised, "the parameter :n is of java.lang.String, and 1 of java.lang.Integer: " + named,
                it -> it.createQuery(named).setParameter("n", 1)),
            use("a parameter that isn't there", raised, "there is no parameter :m in the query: " + named,
                it -> it.createQuery(named).setParameter("m", 1)),
            use("a parameter that isn't set", IllegalStateException.class, "the parameter :n isn't set: " + named, it -> it.createQuery(named).getResultList()),
            use("a new one", raised, "the parameter :n: a new Author, which isn't stored, can't be a parameter: persist it first",
                it -> it.createQuery("SELECT a FROM Author a WHERE a.mentor = :n").setParameter("n", new Author("new")).getResultList()),
            use("half a letter", raised, "the parameter :n: the text has half a surrogate pair",
                it -> it.createQuery(named).setParameter("n", "\ud800").getResultList()),
            use("too long a text", raised, "the parameter :n: the text has 70000 bytes", it -> it.createQuery(named).setParameter("n", long70).getResultList()),
            use("too long a text of a list", raised, "the parameter :n: the text has 70000 bytes",
                it -> it.createQuery(upper).setParameter("n", List.of("CH", long70)).getResultList()),
            use("too long a text to set", raised, "Author.code can't be stored: \"123456\" can't be kept", it -> marked(it, raised,
                () -> it.createQuery("UPDATE Author a SET a.code = :n").setParameter("n", "123456").executeUpdate())),
            use("null to set", PersistenceException.class, "Persistence(null), \"UPDATE Author a SET a.land = NULL\": ",
                it -> it.createQuery("UPDATE Author a SET a.land = NULL").executeUpdate()),
            use("a number beyond its type", PersistenceException.class, "Overflow: SET gives 2 objects a number beyond Integer, the type of Author.age",
                it -> it.createQuery("UPDATE Author a SET a.age = a.age + 3000000000").executeUpdate()),
            use("DELETE of what a row leads to", PersistenceException.class, "Persistence(reference), \"DELETE FROM Prize p\": ",
                it -> it.createQuery("DELETE FROM Prize p").executeUpdate()));
    }

    /** What was refused marked the transaction, also where that is no PersistenceException. */
    private static void marked(EntityManager manager, Class<? extends RuntimeException> raised, Runnable refused) {
        try {
            refused.run();
        } catch (RuntimeException e) {
            assertEquals(raised, e.getClass());
            assertEquals(true, manager.getTransaction().getRollbackOnly());
        }
    }
}
