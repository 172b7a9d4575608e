package karzhoul.jpa.query;

import static org.junit.jupiter.api.Assertions.assertArrayEquals;
import static org.junit.jupiter.api.Assertions.assertEquals;
import static org.junit.jupiter.api.Assertions.assertThrows;
import static org.junit.jupiter.api.Assertions.assertTrue;

import java.util.List;
import java.util.Locale;
import java.util.stream.Collectors;
import java.util.stream.IntStream;
import org.junit.jupiter.api.BeforeEach;
import org.junit.jupiter.api.Test;
import org.junit.jupiter.params.ParameterizedTest;
import org.junit.jupiter.params.provider.ValueSource;

/** UPPER, LOWER and TRIM of the program (chapter 4.7.2.1), beside what Java makes of the same letters. */
class LettersTest extends OverShop {
    private static final int SOME = 5_000;

    private Shop.Person ada;

    @BeforeEach
    void change() {
        manager.getTransaction().begin();
        ada = manager.find(Shop.Person.class, 1L);
    }

    private Object[] of(String name, String items) {
        ada.name = name;
        return (Object[]) manager.createQuery("SELECT " + items + ", p.id FROM Person p WHERE p.id = 1").getSingleResult();
    }

    @ParameterizedTest
    @ValueSource(strings = {"straße", "ŉ", "ΟΔΥΣΣΕΥΣ", "ΑΣ ΑΣΑ Σ ΣΑ", "ὈΔΥΣΣΕΎΣ.", "TITLE i ı İ I", "ﬃ ǰ ΐ", "", "Åse Ø", "𐐀𐐨"})
    void areMappedAsJavaMapsThemWhateverTheLocaleIs(String name) {
        Locale before = Locale.getDefault();
        Locale.setDefault(new Locale("tr", "TR"));
        try {
            Object[] found = of(name, "UPPER(p.name), LOWER(p.name)");
            assertArrayEquals(new Object[] {name.toUpperCase(Locale.ROOT), name.toLowerCase(Locale.ROOT), 1L}, found);
            assertEquals(1, manager.createQuery("SELECT p FROM Person p WHERE p.id = 1 AND UPPER(p.name) = UPPER(:n) AND LOWER(p.name)"
                    + " = LOWER(:n)").setParameter("n", name).getResultList().size());
        } finally {
            Locale.setDefault(before);
        }
    }

    /** Letters that Java doesn't map are left out: those that are younger than its Unicode. */
    @ParameterizedTest
    @ValueSource(strings = {"UPPER", "LOWER"})
    void eachLetterOfJavaIsMapped(String function) {
        List<String> letters = IntStream.range(0x21, 0x110000).filter(c -> !mapped(function, Character.toString(c)).equals(Character.toString(c)))
                .mapToObj(Character::toString).toList();
        assertTrue(letters.size() > 1_300, letters.size() + " letters");
        for (int from = 0; from < letters.size(); from += SOME) {
            String name = String.join(" ", letters.subList(from, Math.min(letters.size(), from + SOME)));
            assertEquals(mapped(function, name), of(name, function + "(p.name)")[0]);
        }
    }

    private static String mapped(String function, String text) {
        return function.equals("UPPER") ? text.toUpperCase(Locale.ROOT) : text.toLowerCase(Locale.ROOT);
    }

    @Test
    void trimTakesOffOneCharacter() {
        String name = "  xAda xx ";
        assertEquals("[xAda xx,   xAda xx, xAda xx ,   xAda xx , 1]", told(of(name, "TRIM(p.name), TRIM(TRAILING FROM p.name),"
                + " TRIM(LEADING ' ' FROM p.name), TRIM('x' FROM p.name)")));
        assertEquals("[Ada , xAda , Ada xx, 1]", told(of("xAda xx", "TRIM('x' FROM p.name), TRIM(TRAILING 'x' FROM p.name),"
                + " TRIM(LEADING 'x' FROM p.name)")));
        assertEquals("[, a, 1]", told(of("𐐀𐐀", "TRIM('𐐀' FROM p.name), TRIM('𐐀' FROM CONCAT('a', p.name))")));
        assertEquals("[\t a\u00a0, 1]", told(of(" \t a\u00a0 ", "TRIM(p.name)")));
        assertEquals("[null, null, 1]", told(of(null, "TRIM(p.name), UPPER(p.name)")));
        ada.name = "ñAdañ";
        String with = "SELECT TRIM(:c FROM p.name), p.id FROM Person p WHERE p.id = 1";
        assertEquals("[Ada, 1]", told((Object[]) manager.createQuery(with).setParameter("c", "ñ").getSingleResult()));
        assertEquals("[Ada, 1]", told((Object[]) manager.createQuery(with).setParameter("c", 'ñ').getSingleResult()));
        assertEquals("[null, 1]", told((Object[]) manager.createQuery(with).setParameter("c", null).getSingleResult()));
        assertThrows(IllegalArgumentException.class, () -> manager.createQuery(with).setParameter("c", "ñA").getSingleResult());
    }

    private static String told(Object[] row) {
        return java.util.Arrays.stream(row).map(String::valueOf).collect(Collectors.joining(", ", "[", "]"));
    }

    @Test
    void setGivesWhatTheyMake() {
        ada.name = " straße ";
        assertEquals(1, manager.createQuery("UPDATE Person p SET p.name = UPPER(TRIM(p.name)) WHERE LOWER(p.name) LIKE '%ß%'").executeUpdate());
        assertEquals("[STRASSE, 7, 1]", told((Object[]) manager.createQuery("SELECT p.name, LENGTH(p.name), p.id FROM Person p WHERE p.id = 1")
                .getSingleResult()));
    }
}
