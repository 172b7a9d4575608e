package karzhoul.jpa.context;

import static org.junit.jupiter.api.Assertions.assertEquals;
import static org.junit.jupiter.api.Assertions.assertNull;
import static org.junit.jupiter.api.Assertions.assertSame;
import static org.junit.jupiter.api.Assertions.assertThrows;

import jakarta.persistence.CascadeType;
import jakarta.persistence.Entity;
import jakarta.persistence.EntityExistsException;
import jakarta.persistence.Id;
import jakarta.persistence.ManyToOne;
import jakarta.persistence.OneToMany;
import jakarta.persistence.OptimisticLockException;
import jakarta.persistence.PrePersist;
import jakarta.persistence.RollbackException;
import java.time.Duration;
import java.util.ArrayList;
import java.util.List;
import karzhoul.jpa.shop.Shop;
import org.junit.jupiter.api.BeforeEach;
import org.junit.jupiter.api.Test;

/** Keys that PrePersist gives in a merge (chapter 3.5.2), and entities without a version that are stale. */
class GivenKeysTest extends Tried {
    @Entity(name = "Letter")
    public static class Letter {
        @Id String id;
        String text;
        int told;
        @ManyToOne Box box;

        protected Letter() {}

        Letter(String text) {
            this.text = text;
        }

        @PrePersist
        void give() {
            id = "letter " + text;
            told++;
        }
    }

    @Entity(name = "Box")
    public static class Box {
        @Id String id;
        @OneToMany(mappedBy = "box", cascade = CascadeType.ALL) List<Letter> letters = new ArrayList<>();

        protected Box() {}

        Box(String id) {
            this.id = id;
        }
    }

    @BeforeEach
    @Override
    void open() {
        factory = Shop.open("karzhoul:memory", List.of(Letter.class, Box.class), Duration.ofSeconds(20), null);
        manager = factory.createEntityManager();
    }

    @Test
    void aMergedOneGetsItsKeyByPrePersist() {
        Letter letter = new Letter("hello");
        commit(() -> {
            Letter merged = manager.merge(letter);
            assertEquals("letter hello", merged.id);
            assertEquals(1, merged.told);
            assertSame(merged, manager.find(Letter.class, "letter hello"));
        });
        assertNull(letter.id, "what was merged stays as it is");
        assertEquals(0, letter.told);
        Letter stored = read(other -> other.find(Letter.class, "letter hello"));
        assertEquals("hello", stored.text);
        assertEquals(1, stored.told, "PrePersist ran once, and all that it did is stored");
        manager.clear();
        commit(() -> manager.persist(new Letter("again")));
        assertEquals(1, read(other -> other.find(Letter.class, "letter again")).told);
    }

    @Test
    void soDoThoseThatTheCascadeReaches() {
        store(new Box("b"));
        Box box = read(other -> {
            Box found = other.find(Box.class, "b");
            found.letters.size();
            return found;
        });
        for (String text : List.of("one", "two")) {
            Letter letter = new Letter(text);
            letter.box = box;
            box.letters.add(letter);
        }
        commit(() -> manager.merge(box));
        List<String> ids = read(other -> other.find(Box.class, "b").letters.stream().map(it -> it.id).toList());
        assertEquals(List.of("letter one", "letter two"), ids);
        assertNull(box.letters.get(0).id);
    }

    @Test
    void aKeyThatIsThereIsNoMerge() {
        store(new Letter("hello"));
        manager.getTransaction().begin();
        assertThrows(EntityExistsException.class, () -> manager.merge(new Letter("hello")));
        manager.getTransaction().rollback();
        assertEquals(1, read(other -> other.find(Letter.class, "letter hello")).told);
    }

    @Test
    void whatIsStaleWithoutAVersionIsNamed() {
        store(new Box("b"), new Letter("one"), new Letter("two"));
        for (boolean isLink : new boolean[] {false, true}) {
            manager.clear();
            manager.getTransaction().begin();
            Letter first = manager.find(Letter.class, "letter one");
            Letter second = manager.find(Letter.class, "letter two");
            other(it -> {
                Letter theirs = it.find(Letter.class, "letter two");
                theirs.told += isLink ? 0 : 10;
                theirs.box = isLink ? it.find(Box.class, "b") : null;
            });
            first.text = "mine" + isLink;
            second.text = "mine" + isLink;
            RollbackException refused = assertThrows(RollbackException.class, () -> manager.getTransaction().commit());
            assertSame(second, ((OptimisticLockException) refused.getCause()).getEntity());
        }
    }
}
