package karzhoul.jpa.context;

import static org.junit.jupiter.api.Assertions.assertEquals;
import static org.junit.jupiter.api.Assertions.assertThrows;

import jakarta.persistence.Column;
import jakarta.persistence.Embeddable;
import jakarta.persistence.Embedded;
import jakarta.persistence.Entity;
import jakarta.persistence.EntityManager;
import jakarta.persistence.EnumType;
import jakarta.persistence.Enumerated;
import jakarta.persistence.Id;
import org.junit.jupiter.api.AfterEach;
import org.junit.jupiter.api.BeforeEach;
import org.junit.jupiter.api.Test;

/**
 * Constants of enums by their qualified names, where attributes have names of the package (chapter 4.6.1): an attribute
 * stands behind its variable, or alone where an UPDATE or a DELETE has none.
 */
class EnumLiteralsTest {
    private static final String STATE = "karzhoul.jpa.context.EnumLiteralsTest.State.";
    private static final String LINE = "karzhoul.jpa.context.EnumLiteralsTest.Line";

    /** Of a ticket. */
    public enum State { OPEN, CLOSED }

    /** What a query makes. */
    public record Line(Long id, State state) {}

    @Embeddable
    static class Jpa {
        String context;

        Jpa() {}
    }

    @Entity(name = "Ticket")
    static class Ticket {
        @Id Long id;
        State state;
        @Enumerated(EnumType.STRING) @Column(name = "named") State State;
        String karzhoul;
        @Embedded Jpa jpa = new Jpa();

        Ticket() {}

        Ticket(long id, State state) {
            this.id = id;
            this.state = state;
            this.State = state;
            karzhoul = "k" + id;
        }
    }

    @Entity(name = "Deep")
    static class Deep {
        @Id Long id;
        State state;
        @Embedded Outer karzhoul = new Outer();
    }

    @Embeddable
    static class Outer {
        @Embedded Jpa jpa = new Jpa();
    }

    private Factory factory;
    private EntityManager manager;

    @BeforeEach
    void fill() {
        factory = Units.over("karzhoul:memory", Ticket.class, Deep.class, Outer.class, Jpa.class);
        manager = factory.createEntityManager();
        manager.getTransaction().begin();
        manager.persist(new Ticket(1, State.OPEN));
        manager.persist(new Ticket(2, State.CLOSED));
        Deep deep = new Deep();
        deep.id = 1L;
        manager.persist(deep);
    }

    @AfterEach
    void close() {
        manager.getTransaction().rollback();
        factory.close();
    }

    private void rows(String rows, String text) {
        assertEquals(rows, manager.createQuery(text).getResultList().toString(), text);
    }

    private void changes(int count, String text) {
        assertEquals(count, manager.createQuery(text).executeUpdate(), text);
    }

    @Test
    void inSelect() {
        rows("[1]", "SELECT t.id FROM Ticket t WHERE t.state = " + STATE + "OPEN");
        rows("[2]", "SELECT t.id FROM Ticket t WHERE t.State IN (" + STATE + "CLOSED)");
        rows("[CLOSED]", "SELECT CASE WHEN t.id = 1 THEN " + STATE + "CLOSED ELSE t.state END FROM Ticket t WHERE t.karzhoul = 'k1'");
        rows("[Line[id=1, state=OPEN], Line[id=2, state=OPEN]]",
            "SELECT NEW " + LINE + "(t.id, " + STATE + "OPEN) FROM Ticket t ORDER BY t.id");
        rows("[Line[id=1, state=OPEN]]", "SELECT NEW " + LINE + "(karzhoul.id, karzhoul.state) FROM Ticket karzhoul WHERE karzhoul.id = 1");
    }

    @Test
    void inUpdate() {
        changes(1, "UPDATE Ticket t SET t.state = " + STATE + "CLOSED WHERE t.state = " + STATE + "OPEN");
        changes(2, "UPDATE Ticket SET state = " + STATE + "OPEN, State = State.OPEN WHERE karzhoul LIKE 'k%'");
        changes(1, "UPDATE Ticket SET state = CASE WHEN State = " + STATE + "OPEN THEN " + STATE + "CLOSED ELSE " + STATE
            + "OPEN END WHERE id = 1");
        changes(1, "UPDATE Ticket t SET t.karzhoul = 'x' WHERE EXISTS (SELECT d FROM Ticket d WHERE d.id = t.id AND d.state = "
            + STATE + "OPEN)");
        rows("[k1, x]", "SELECT t.karzhoul FROM Ticket t ORDER BY t.id");
        changes(1, "UPDATE Deep SET state = " + STATE + "OPEN, karzhoul.jpa.context = 'here' WHERE karzhoul.jpa.context IS NULL");
    }

    @Test
    void inDelete() {
        changes(1, "DELETE FROM Ticket WHERE state = " + STATE + "OPEN");
        changes(1, "DELETE FROM Ticket t WHERE t.state = " + STATE + "CLOSED AND t.jpa.context IS NULL");
        changes(0, "DELETE FROM Deep WHERE state = " + STATE + "OPEN AND karzhoul.jpa.context = 'here'");
    }

    @Test
    void aVariableOfThatNameComesFirst() {
        refused("SELECT karzhoul FROM Ticket karzhoul WHERE karzhoul.state = " + STATE + "OPEN", "\"jpa.context\" of Ticket is a value");
        refused("UPDATE Ticket karzhoul SET karzhoul.state = " + STATE + "OPEN", "\"jpa.context\" of Ticket is a value");
        refused("UPDATE Ticket SET state = " + STATE + "OPE", "has no constant \"OPE\"; did you mean \"OPEN\"?");
        refused("UPDATE Ticket SET " + STATE + "OPEN = 1", "expected a path of the entity that is updated");
    }

    private void refused(String text, String words) {
        String said = assertThrows(IllegalArgumentException.class, () -> manager.createQuery(text)).getMessage();
        assertEquals(words, said.contains(words) ? words : said);
    }
}
