package karzhoul.jpa.context;

import static org.junit.jupiter.api.Assertions.assertEquals;
import static org.junit.jupiter.api.Assertions.assertThrows;
import static org.junit.jupiter.api.Assertions.assertTrue;

import jakarta.persistence.CascadeType;
import jakarta.persistence.ElementCollection;
import jakarta.persistence.Entity;
import jakarta.persistence.Id;
import jakarta.persistence.ManyToMany;
import jakarta.persistence.ManyToOne;
import jakarta.persistence.OneToMany;
import jakarta.persistence.Version;
import java.time.Duration;
import java.util.ArrayList;
import java.util.HashSet;
import java.util.List;
import java.util.Set;
import java.util.function.Consumer;
import karzhoul.jpa.shop.Shop;
import org.junit.jupiter.api.BeforeEach;
import org.junit.jupiter.api.Test;
import org.junit.jupiter.params.ParameterizedTest;
import org.junit.jupiter.params.provider.CsvSource;

/** Two detached copies of one entity in a merged graph, which Hibernate refuses: here where they differ (chapter 3.2.7.1). */
class MergedCopiesTest extends Tried {
    @Entity(name = "Shelf")
    public static class Shelf {
        @Id long id;
        @OneToMany(mappedBy = "shelf", cascade = CascadeType.ALL) List<Book> books = new ArrayList<>();
    }

    @Entity(name = "Book")
    public static class Book {
        @Id long id;
        @Version Integer version;
        String title;
        byte[] cover = {1, 2};
        @ManyToOne Shelf shelf;
        @ManyToOne Shelf lent;
        @ElementCollection Set<String> words = new HashSet<>();
        @ManyToMany Set<Shelf> seen = new HashSet<>();
    }

    @BeforeEach
    @Override
    void open() {
        factory = Shop.open("karzhoul:memory", List.of(Shelf.class, Book.class), Duration.ofSeconds(20), null);
        manager = factory.createEntityManager();
        Shelf shelf = new Shelf();
        shelf.id = 1;
        Book book = new Book();
        book.id = 10;
        book.title = "Emma";
        book.shelf = shelf;
        book.lent = shelf;
        book.words.addAll(Set.of("a", "b", "c"));
        book.seen.add(shelf);
        shelf.books.add(book);
        store(shelf);
    }

    private Book copy() {
        return read(other -> {
            Book book = other.find(Book.class, 10L);
            book.words.size();
            book.seen.size();
            return book;
        });
    }

    private void mergeBoth(Book one, Book other) {
        Shelf shelf = new Shelf();
        shelf.id = 1;
        one.shelf = shelf;
        other.shelf = shelf;
        shelf.books.addAll(List.of(one, other));
        manager.merge(shelf);
    }

    @ParameterizedTest
    @CsvSource({"title", "cover", "words", "lent", "seen"})
    void whatDiffersIsRefused(String path) {
        Consumer<Book> change = book -> {
            switch (path) {
                case "title" -> book.title = "Persuasion";
                case "cover" -> book.cover = new byte[] {3};
                case "words" -> book.words.add("d");
                case "lent" -> book.lent = null;
                default -> book.seen.clear();
            }
        };
        Book changed = copy();
        change.accept(changed);
        manager.getTransaction().begin();
        RuntimeException refused = assertThrows(IllegalStateException.class, () -> mergeBoth(changed, copy()));
        assertEquals("Multiple representations of the same entity are being merged: two copies of Book 10 differ in " + path
            + "; let the merged graph lead to one of them", refused.getMessage());
        assertTrue(manager.getTransaction().getRollbackOnly());
        assertThrows(IllegalStateException.class, () -> mergeBoth(copy(), changed));
    }

    @Test
    void whatIsTheSameIsMerged() {
        Book one = copy();
        Book other = copy();
        one.title = "Persuasion";
        other.title = new String("Persuasion");
        commit(() -> mergeBoth(one, other));
        assertEquals("Persuasion 1", read(it -> it.find(Book.class, 10L).title + " " + it.find(Book.class, 10L).version));
    }

    @Test
    void anUnreadCopyIsTheSame() {
        Book unread = read(other -> other.find(Book.class, 10L));
        Book read = copy();
        read.words.remove("a");
        commit(() -> mergeBoth(read, unread));
        assertEquals(Set.of("b", "c"), read(it -> new HashSet<>(it.find(Book.class, 10L).words)));
    }
}
