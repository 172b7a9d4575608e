package karzhoul.jpa.context;

import static org.junit.jupiter.api.Assertions.assertEquals;
import static org.junit.jupiter.api.Assertions.assertFalse;
import static org.junit.jupiter.api.Assertions.assertNull;
import static org.junit.jupiter.api.Assertions.assertSame;
import static org.junit.jupiter.api.Assertions.assertThrows;
import static org.junit.jupiter.api.Assertions.assertTrue;

import jakarta.persistence.EntityManager;
import jakarta.persistence.OptimisticLockException;
import jakarta.persistence.PersistenceException;
import jakarta.persistence.PersistenceUnitUtil;
import java.util.ArrayList;
import java.util.HashMap;
import java.util.HashSet;
import java.util.List;
import java.util.function.Consumer;
import java.util.function.Function;
import org.junit.jupiter.api.AfterEach;
import org.junit.jupiter.api.BeforeEach;
import org.junit.jupiter.api.Test;

/** merge of what has read some of its relations, and not others (chapter 3.2.7.1), and collections that moved. */
class MergeTest {
    private Factory factory;
    private EntityManager manager;
    private PersistenceUnitUtil util;

    /** Node 1 leads to 2 by next and other, and to 10 .. 59 by friends; 2 to 3 by next; 3 has 1 as a friend. */
    @BeforeEach
    void open() {
        factory = Units.over("karzhoul:memory", Node.class);
        manager = factory.createEntityManager();
        util = factory.getPersistenceUnitUtil();
        Node one = new Node(1, "one");
        Node two = new Node(2, "two");
        Node three = new Node(3, "three");
        one.next = two;
        one.other = two;
        two.next = three;
        three.friends.add(one);
        one.known.addAll(List.of(two, three));
        one.named.put("two", two);
        commit(it -> {
            List.of(one, two, three).forEach(it::persist);
            for (int i = 10; i < 60; i++) {
                Node friend = new Node(i, "friend");
                it.persist(friend);
                one.friends.add(friend);
            }
        });
        manager.clear();
    }

    @AfterEach
    void close() {
        factory.close();
    }

    private void commit(Consumer<EntityManager> done) {
        manager.getTransaction().begin();
        done.accept(manager);
        manager.getTransaction().commit();
    }

    private <T> T read(Function<EntityManager, T> read) {
        try (EntityManager other = factory.createEntityManager()) {
            return read.apply(other);
        }
    }

    private int friends(long number) {
        return read(it -> it.find(Node.class, number).friends.size());
    }

    private int known(long number) {
        return read(it -> it.find(Node.class, number).known.size());
    }

    private int named(long number) {
        return read(it -> it.find(Node.class, number).named.size());
    }

    private long made(Runnable done) {
        long before = factory.pool().engine().made();
        done.run();
        return factory.pool().engine().made() - before;
    }

    @Test
    void whatTheSourceHasNotReadIsNotReadThoughItsImageIsManaged() {
        Node source = read(it -> it.find(Node.class, 1L));
        source.name = "uno";
        commit(it -> {
            Node image = it.find(Node.class, 1L);
            assertEquals(0, made(() -> assertSame(image, it.merge(source))));
            assertFalse(util.isLoaded(image, "friends"));
            assertEquals("uno", image.name);
        });
        assertEquals("uno", read(it -> it.find(Node.class, 1L).name));
        assertEquals(50, friends(1));
        assertEquals(2, known(1));
    }

    @Test
    void oneCollectionIsReadAndTheOthersAreNot() {
        Node source = read(it -> {
            Node found = it.find(Node.class, 1L);
            found.known.size();
            return found;
        });
        source.known.removeIf(each -> each.number == 2);
        commit(it -> {
            long made = made(() -> assertEquals(1, it.merge(source).known.size()));
            assertTrue(made <= 4, "1, 2 and 3, and room for one more: " + made);
            assertFalse(util.isLoaded(it.find(Node.class, 1L), "friends"));
        });
        assertEquals(List.of(3L), read(it -> it.find(Node.class, 1L).known.stream().map(each -> each.number).toList()));
        assertEquals(50, friends(1));
        assertEquals(1, named(1));
    }

    @Test
    void whatTheCascadeReachesIsCopiedToo() {
        Node source = read(it -> it.find(Node.class, 1L));
        source.next.name = "dos";
        source.next.next = new Node(70, "new");
        Node merged = manager.merge(source);
        assertTrue(manager.contains(merged.next.next));
        assertSame(merged.next, merged.other);
        commit(it -> { });
        assertEquals("dos", read(it -> it.find(Node.class, 1L).other.name));
        assertEquals("new", read(it -> it.find(Node.class, 2L).next.name));
        assertEquals(50, friends(1));
    }

    @Test
    void aLinkThatDoesNotCascadeLeadsToWhatIsManaged() {
        Node source = read(it -> it.find(Node.class, 1L));
        source.other = read(it -> it.find(Node.class, 3L));
        source.other.name = "isn't copied";
        commit(it -> {
            Node merged = it.merge(source);
            assertSame(it.find(Node.class, 3L), merged.other);
            assertEquals("three", merged.other.name);
        });
        assertEquals("three", read(it -> it.find(Node.class, 1L).other.name));
        assertEquals(1, friends(3));
    }

    @Test
    void whatTheSameMergeMakesIsLedToByEachRelation() {
        Node source = read(it -> it.find(Node.class, 1L));
        source.next = new Node(80, "new");
        source.other = source.next;
        commit(it -> {
            Node merged = it.merge(source);
            assertSame(merged.next, merged.other);
            assertTrue(it.contains(merged.next));
        });
        assertEquals("new", read(it -> it.find(Node.class, 1L).other.name));
        assertEquals(50, friends(1));
    }

    @Test
    void theStaleOneIsToldAndNothingIsCopied() {
        Node source = read(it -> {
            Node found = it.find(Node.class, 1L);
            found.known.size();
            return found;
        });
        source.name = "uno";
        source.known.clear();
        source.next.name = "dos";
        commit(it -> it.find(Node.class, 2L).name = "zwei");
        manager.clear();
        Node image = manager.find(Node.class, 1L);
        OptimisticLockException refused = assertThrows(OptimisticLockException.class, () -> manager.merge(source));
        assertSame(source.next, refused.getEntity());
        assertEquals("one", image.name);
        commit(it -> { });
        assertEquals("one", read(it -> it.find(Node.class, 1L).name));
        assertEquals(2, known(1));
        assertEquals("zwei", read(it -> it.find(Node.class, 2L).name));
    }

    @Test
    void aCollectionThatMovedUnreadIsMergedWithItsMembers() {
        commit(it -> {
            Node one = it.find(Node.class, 1L);
            Node fresh = new Node(90, "fresh");
            fresh.friends = one.friends;
            it.merge(fresh);
        });
        assertEquals(50, friends(90));
        assertEquals(50, friends(1));
    }

    @Test
    void anUnreadCollectionOfWhatWasDetachedIsRefusedWhereItMoved() {
        Node one = read(it -> it.find(Node.class, 1L));
        Node fresh = new Node(90, "fresh");
        fresh.friends = one.friends;
        String words = assertThrows(PersistenceException.class, () -> manager.merge(fresh)).getMessage();
        assertTrue(words.startsWith("Node 1.friends wasn't read before its owner was detached"), words);
        Node copy = new Node(1, "copy");
        copy.friends = one.friends;
        copy.known = one.known;
        commit(it -> it.merge(copy));
        assertEquals("copy", read(it -> it.find(Node.class, 1L).name));
        assertEquals(50, friends(1));
    }

    @Test
    void aCollectionThatMovedUnreadHasItsMembersThoughItsOwnerWasToldFirst() {
        commit(it -> {
            Node one = it.find(Node.class, 1L);
            Node two = it.find(Node.class, 2L);
            two.friends = one.friends;
            two.known = one.known;
            two.named = one.named;
            one.friends = new ArrayList<>();
            one.known = new HashSet<>();
            one.named = new HashMap<>();
        });
        Node two = read(it -> {
            Node found = it.find(Node.class, 2L);
            found.friends.size();
            found.named.size();
            found.known.size();
            return found;
        });
        assertEquals(50, two.friends.size());
        assertEquals(2, two.known.size());
        assertEquals("two", two.named.get("two").name);
        assertEquals(0, friends(1));
        assertEquals(0, known(1));
        assertEquals(0, named(1));
    }

    @Test
    void twoOwnersExchangeTheirUnreadCollections() {
        commit(it -> {
            Node one = it.find(Node.class, 1L);
            Node three = it.find(Node.class, 3L);
            List<Node> friends = one.friends;
            one.friends = three.friends;
            three.friends = friends;
        });
        assertEquals(1, friends(1));
        assertEquals(50, friends(3));
    }

    @Test
    void aVariableKeepsWhatAReplacedCollectionHad() {
        List<Node> had = new ArrayList<>();
        commit(it -> {
            Node one = it.find(Node.class, 1L);
            List<Node> before = one.friends;
            one.friends = new ArrayList<>();
            it.flush();
            had.addAll(before);
        });
        assertEquals(50, had.size());
        assertNull(manager.find(Node.class, 1L).friends.stream().findAny().orElse(null));
    }
}
