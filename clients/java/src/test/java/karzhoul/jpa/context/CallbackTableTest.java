package karzhoul.jpa.context;

import static org.junit.jupiter.api.Assertions.assertEquals;

import jakarta.persistence.ElementCollection;
import jakarta.persistence.Entity;
import jakarta.persistence.EntityManager;
import jakarta.persistence.Id;
import jakarta.persistence.LockModeType;
import jakarta.persistence.ManyToMany;
import jakarta.persistence.ManyToOne;
import jakarta.persistence.PostPersist;
import jakarta.persistence.PostRemove;
import jakarta.persistence.PostUpdate;
import jakarta.persistence.PrePersist;
import jakarta.persistence.PreRemove;
import jakarta.persistence.PreUpdate;
import jakarta.persistence.Version;
import java.util.ArrayList;
import java.util.Date;
import java.util.List;
import org.junit.jupiter.api.AfterEach;
import org.junit.jupiter.api.BeforeEach;
import org.junit.jupiter.api.Test;

/**
 * Which callbacks are heard, and when: before and after each write of the row (chapter 3.6.3). A row is what a
 * transaction does, a letter each, and in parentheses what is heard then; the dot is its commit. EclipseLink 2.7.11 over
 * SQLite hears the same in the first table.
 */
class CallbackTableTest {
    /** P persist, R remove, M merge a changed copy, U refresh, L raise the version, F flush, Q a query, | commit and begin. */
    private static final String CALLS = "PRMULFQ|";

    /** C another name, S the same one, T the one before, E an element, O a member, N a link, all as fields. */
    private static final List<String> AGREED = List.of(
        "F.", "FF.", "C.(Uu)", "CF(Uu).", "CF(Uu)F.", "CF(Uu)FF.", "CF(Uu)FCF(Uu).", "CF(Uu)|C.(Uu)", "CF(Uu)|F|CF(Uu).",
        "CT.", "CTF.", "CF(Uu)T.(Uu)", "CF(Uu)TF(Uu).", "SF.", "CF(Uu)S.", "CF(Uu)SF.",
        "CQ(Uu).", "CQ(Uu)F.", "CQ(Uu)Q.", "CF(Uu)Q.", "CF(Uu)QCQ(Uu).",
        "P(P)C.(p)", "P(P)CF(p).", "P(P)F(p)C.(Uu)", "P(P)F(p)FCF(Uu)F.",
        "R(R)F(r).", "CF(Uu)R(R).(r)", "CF(Uu)R(R)F(r).", "CF(Uu)FR(R)F(r).",
        "E.(Uu)", "EF(Uu).", "EF(Uu)F.", "EF(Uu)EF(Uu).", "O.(Uu)", "OF(Uu).", "OF(Uu)F.", "N.(Uu)", "NF(Uu).", "NF(Uu)F.",
        "L.(Uu)", "MF(Uu).", "MF(Uu)F.", "CU.", "CUF.", "CF(Uu)U.", "CF(Uu)UF.");

    /** There a lock raises PreUpdate at each flush, D a date that is changed in place isn't stored, CR is an update first. */
    private static final List<String> OWN = List.of("LF(Uu).", "LF(Uu)F.", "LF(Uu)CF(Uu).", "D.(Uu)", "DF(Uu)F.",
        "DF(Uu)DF(Uu).", "CR(R).(r)");

    @Entity
    static class Item {
        private static final StringBuilder TOLD = new StringBuilder();
        private static boolean writes;

        @Id long id;
        @Version int version;
        String name = "a";
        int updates;
        Date day = new Date(0);
        @ElementCollection List<String> words = new ArrayList<>();
        @ManyToMany List<Item> others = new ArrayList<>();
        @ManyToOne Item other;

        @PrePersist
        void isPersisted() {
            TOLD.append('P');
        }

        @PostPersist
        void wasPersisted() {
            TOLD.append('p');
        }

        @PreUpdate
        void isUpdated() {
            TOLD.append('U');
            updates += writes ? 1 : 0;
        }

        @PostUpdate
        void wasUpdated() {
            TOLD.append('u');
        }

        @PreRemove
        void isRemoved() {
            TOLD.append('R');
        }

        @PostRemove
        void wasRemoved() {
            TOLD.append('r');
        }
    }

    private Factory factory;
    private EntityManager manager;
    private long last;

    @BeforeEach
    void open() {
        factory = Units.over("karzhoul:memory", Item.class);
    }

    @AfterEach
    void close() {
        factory.close();
    }

    private Item made() {
        Item item = new Item();
        item.id = ++last;
        return item;
    }

    private String heard() {
        String heard = Item.TOLD.isEmpty() ? "" : "(" + Item.TOLD + ")";
        Item.TOLD.setLength(0);
        return heard;
    }

    /** The row again, with what is heard now. */
    private String told(String row) {
        String done = row.replaceAll("\\(\\w+\\)|\\.", "");
        manager = factory.createEntityManager();
        Item item = made();
        Item other = made();
        manager.getTransaction().begin();
        manager.persist(other);
        if (!done.startsWith("P")) {
            manager.persist(item);
        }
        manager.getTransaction().commit();
        heard();
        manager.getTransaction().begin();
        StringBuilder told = new StringBuilder();
        for (char one : done.toCharArray()) {
            if (CALLS.indexOf(one) >= 0) {
                call(one, item);
            } else {
                change(one, item, other, told.length());
            }
            told.append(one).append(heard());
        }
        manager.getTransaction().commit();
        manager.close();
        return told + "." + heard();
    }

    private void call(char one, Item item) {
        switch (one) {
            case 'P' -> manager.persist(item);
            case 'R' -> manager.remove(item);
            case 'M' -> {
                Item copy = new Item();
                copy.id = item.id;
                copy.name = "merged";
                manager.merge(copy);
            }
            case 'U' -> manager.refresh(item);
            case 'L' -> manager.lock(item, LockModeType.OPTIMISTIC_FORCE_INCREMENT);
            case 'F' -> manager.flush();
            case 'Q' -> manager.createQuery("SELECT i FROM Item i").getResultList();
            default -> {
                manager.getTransaction().commit();
                manager.getTransaction().begin();
            }
        }
    }

    private static void change(char one, Item item, Item other, int at) {
        switch (one) {
            case 'C' -> item.name = "changed " + at;
            case 'S' -> item.name = new String(item.name);
            case 'T' -> item.name = "a";
            case 'E' -> item.words.add("word " + at);
            case 'O' -> item.others.add(other);
            case 'N' -> item.other = other;
            default -> item.day.setTime(1_000L * (at + 1));
        }
    }

    @Test
    void eachWriteOfTheRowIsHeardOnce() {
        for (boolean writes : new boolean[] {false, true}) {
            Item.writes = writes;
            assertEquals(AGREED, AGREED.stream().map(this::told).toList());
            assertEquals(OWN, OWN.stream().map(this::told).toList());
        }
    }
}
