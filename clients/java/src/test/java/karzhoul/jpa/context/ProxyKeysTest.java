package karzhoul.jpa.context;

import static org.junit.jupiter.api.Assertions.assertEquals;
import static org.junit.jupiter.api.Assertions.assertFalse;
import static org.junit.jupiter.api.Assertions.assertTrue;

import jakarta.persistence.Embeddable;
import jakarta.persistence.EmbeddedId;
import jakarta.persistence.Entity;
import jakarta.persistence.EntityManager;
import jakarta.persistence.FetchType;
import jakarta.persistence.Id;
import jakarta.persistence.ManyToOne;
import java.io.Serializable;
import java.time.Duration;
import java.util.HashSet;
import java.util.List;
import java.util.Objects;
import java.util.Set;
import karzhoul.jpa.shop.Shop;
import org.junit.jupiter.api.Test;

/** The key of a proxy is in its fields before anything is read, as an {@code equals} by keys looks for it. */
class ProxyKeysTest {
    @Entity
    static class Topic {
        @Id Long id;
        String name;

        @Override
        public boolean equals(Object other) {
            return this == other || other instanceof Topic topic && Objects.equals(id, topic.id);
        }

        @Override
        public int hashCode() {
            return Long.hashCode(id);
        }
    }

    @Embeddable
    static class At implements Serializable {
        private static final long serialVersionUID = 1;
        int row;
        String column;

        @Override
        public boolean equals(Object other) {
            return other instanceof At at && row == at.row && Objects.equals(column, at.column);
        }

        @Override
        public int hashCode() {
            return Objects.hash(row, column);
        }
    }

    @Entity
    static class Cell {
        @EmbeddedId At at;
        @ManyToOne(fetch = FetchType.LAZY) Topic topic;
    }

    @Test
    void aKeyThatIsComparedByFields() {
        try (Factory factory = Shop.open("karzhoul:memory", List.of(Topic.class, Cell.class), Duration.ofSeconds(20), null);
                EntityManager manager = factory.createEntityManager()) {
            Topic topic = new Topic();
            topic.id = 7L;
            Cell cell = new Cell();
            cell.at = new At();
            cell.at.row = 3;
            cell.at.column = "c";
            cell.topic = topic;
            manager.getTransaction().begin();
            manager.persist(topic);
            manager.persist(cell);
            manager.getTransaction().commit();
            manager.clear();

            Cell reference = manager.getReference(Cell.class, cell.at);
            assertEquals(3, reference.at.row);
            assertEquals("c", reference.at.column);
            Topic proxy = manager.find(Cell.class, cell.at).topic;
            assertFalse(factory.getPersistenceUnitUtil().isLoaded(proxy));
            assertTrue(topic.equals(proxy));
            Set<Topic> known = new HashSet<>(Set.of(topic));
            assertTrue(known.contains(proxy));
            assertEquals(7L, factory.getPersistenceUnitUtil().getIdentifier(proxy));
        }
    }
}
