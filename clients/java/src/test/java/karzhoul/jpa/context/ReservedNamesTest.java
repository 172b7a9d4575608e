package karzhoul.jpa.context;

import static org.junit.jupiter.api.Assertions.assertEquals;

import jakarta.persistence.ElementCollection;
import jakarta.persistence.Embeddable;
import jakarta.persistence.EmbeddedId;
import jakarta.persistence.Entity;
import jakarta.persistence.EntityManager;
import jakarta.persistence.Id;
import jakarta.persistence.ManyToOne;
import jakarta.persistence.OneToMany;
import java.io.Serializable;
import java.util.ArrayList;
import java.util.List;
import org.junit.jupiter.api.Test;

/** Entities, attributes and relations whose names are words of the language, also of its wider one. */
class ReservedNamesTest {
    @Entity(name = "Trim")
    static class Trim {
        @Id
        Long upper;
        String lower;
        String leading;
        Integer end;
        @ManyToOne
        Trim some;
        @OneToMany(mappedBy = "some")
        List<Trim> all = new ArrayList<>();
        @ElementCollection
        List<String> any = new ArrayList<>();
    }

    @Entity(name = "Case")
    static class CaseOf {
        @EmbeddedId
        Both both;
        String trailing;
    }

    @Embeddable
    static class Both implements Serializable {
        int then;
        int when;

        @Override
        public boolean equals(Object other) {
            return other instanceof Both that && then == that.then && when == that.when;
        }

        @Override
        public int hashCode() {
            return 31 * then + when;
        }
    }

    private static Factory filled() {
        Factory factory = Units.over("karzhoul:memory", Trim.class, CaseOf.class, Both.class);
        try (EntityManager manager = factory.createEntityManager()) {
            manager.getTransaction().begin();
            Trim first = new Trim();
            first.upper = 1L;
            first.lower = " Ada ";
            first.leading = "x";
            first.end = 7;
            first.any.add("word");
            Trim second = new Trim();
            second.upper = 2L;
            second.lower = "Bob";
            second.some = first;
            CaseOf third = new CaseOf();
            third.both = new Both();
            third.both.then = 3;
            third.trailing = "t";
            manager.persist(first);
            manager.persist(second);
            manager.persist(third);
            manager.getTransaction().commit();
        }
        return factory;
    }

    @Test
    void areAskedAndChanged() {
        try (Factory factory = filled(); EntityManager manager = factory.createEntityManager()) {
            rows(manager, "[1]", "SELECT trim.upper FROM Trim trim WHERE TRIM(trim.lower) = 'Ada' AND trim.end = 7");
            rows(manager, "[BOB]", "SELECT UPPER(upper.lower) FROM Trim upper WHERE upper.some.upper = 1 ORDER BY upper.lower");
            rows(manager, "[2]", "SELECT leading.upper FROM Trim t JOIN t.all leading WHERE leading.lower IN ('Bob', t.leading)");
            rows(manager, "[word]", "SELECT VALUE(word) FROM Trim t JOIN t.any word");
            rows(manager, "[1]", "SELECT t.upper FROM Trim t WHERE t.all IS NOT EMPTY AND SIZE(t.any) = 1 AND TYPE(t) = Trim");
            rows(manager, "[3]", "SELECT lower.both.then FROM Case lower WHERE lower.both.when = 0 AND lower.trailing = 't'");
            rows(manager, "[7, null]", "SELECT MAX(trailing.end) AS leading FROM Trim trailing GROUP BY trailing.end ORDER BY leading DESC");
            assertEquals("[]", manager.createQuery("SELECT t FROM Trim t WHERE t.some = t").getResultList().toString());
            manager.getTransaction().begin();
            assertEquals(2, manager.createQuery("UPDATE Trim SET lower = UPPER(lower), end = 8").executeUpdate());
            assertEquals(1, manager.createQuery("UPDATE Trim trim SET trim.some = NULL WHERE trim.some.lower = ' ADA '").executeUpdate());
            assertEquals(1, manager.createQuery("DELETE FROM Case WHERE trailing = LOWER('T')").executeUpdate());
            rows(manager, "[ ADA , BOB]", "SELECT t.lower FROM Trim t WHERE t.some IS NULL AND t.end = 8 ORDER BY t.upper");
            manager.getTransaction().commit();
        }
    }

    private static void rows(EntityManager manager, String rows, String text) {
        assertEquals(rows, manager.createQuery(text).getResultList().toString(), text);
    }
}
