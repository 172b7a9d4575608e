package karzhoul.jpa.query;

import static org.junit.jupiter.api.Assertions.assertEquals;
import static org.junit.jupiter.api.Assertions.assertTrue;

import java.util.ArrayList;
import java.util.HashMap;
import java.util.List;
import java.util.Random;
import karzhoul.jpa.model.UnitModel;
import karzhoul.jpa.query.Tree.Select;
import org.junit.jupiter.params.ParameterizedTest;
import org.junit.jupiter.params.provider.ValueSource;

/** Random conditions: the program and the door decide each, and leave the same rows. */
class RandomConditionsTest extends OverShop {
    private static final int COUNT = Integer.getInteger("karzhoul.conditions", 150);
    private static final String[] NUMBERS = {"p.age", "p.id", "p.credit", "o.amount", "o.price", "o.number",
            "p.team.limit",
        "p.boss.age", "LENGTH(p.name)", "SIZE(p.tags)"};
    private static final String[] CONSTANTS = {"0", "1", "3", "5", "7", "36", "50", "2.25", "10.5", "0.1", "35.5",
            "-1", "1e9"};
    private static final String[] TEXTS = {"p.name", "p.address.city", "p.team.name", "p.boss.name",
            "SUBSTRING(p.name, 2)",
        "CONCAT(p.name, 'x')", "COALESCE(p.name, 'none')"};
    private static final String[] WORDS = {"'Ada'", "'Bob'", "'London'", "'Red'", "'da'", "'Adax'", "'none'", "''"};
    private static final String[] PATTERNS = {"'%'", "'_'", "'A%'", "'%o%'", "'_o_'", "'%x'", "'none'"};
    private static final String[] SIGNS = {"=", "<>", "<", "<=", ">", ">="};
    private static final String[] OTHERS = {"p.active = TRUE", "p.active <> FALSE",
        "p.mood = karzhoul.jpa.query.Shop.Mood.GLAD", "p.mood <> karzhoul.jpa.query.Shop.Mood.SAD",
        "o.status IN (karzhoul.jpa.query.Shop.Status.OPEN, karzhoul.jpa.query.Shop.Status.SENT)",
        "p.born > {d '1850-01-01'}", "o.placed <= {ts '2026-01-01 08:00:00'}", "o.hour <> {t '12:00:00'}",
                "p.weight > 0.5",
        "p.weight = 2.25", "p.boss IS NULL", "o.person = p", "o.person <> p", "p.team IS NOT NULL"};

    private Random random;

    @ParameterizedTest
    @ValueSource(longs = {1, 2, 3, 4})
    void areDecidedAlike(long seed) {
        random = new Random(seed);
        List<String> wrong = new ArrayList<>();
        int found = 0;
        for (int count = 0; count < COUNT; count++) {
            String text = "SELECT p.id, o.number FROM Person p, Order o WHERE " + condition(3);
            String program = rows(text);
            String door = Told.rows(byDoor(text), false);
            found += program.equals("[]") ? 0 : 1;
            if (!program.equals(door)) {
                wrong.add(text + "\n program " + program + "\n door " + door);
            }
        }
        assertEquals(List.of(), wrong);
        assertTrue(found > COUNT / 4, found + " had rows");
    }

    private List<Object[]> byDoor(String text) {
        Asking asking = ((StatementQuery<?>) manager.createQuery(text)).asking();
        UnitModel unit = asking.unit();
        Select select = (Select) Resolver.resolve(unit, text, Parser.parse(text));
        SelectPlan plan = Planner.select(unit, text, select, test -> !hasSize(text));
        return plan.rows(new Binding(asking, new HashMap<>(), Hints.Deadline.NONE), null, null);
    }

    /** SIZE is the program's alone. */
    private static boolean hasSize(String text) {
        return text.contains("SIZE");
    }

    private String condition(int depth) {
        int kind = random.nextInt(depth == 0 ? 6 : 10);
        return switch (kind) {
            case 0 -> number() + " " + one(SIGNS) + " " + number();
            case 1 -> text() + " " + one(SIGNS) + " " + text();
            case 2 -> one(TEXTS) + not() + " LIKE " + one(PATTERNS);
            case 3 -> number() + not() + " BETWEEN " + one(CONSTANTS) + " AND " + one(CONSTANTS);
            case 4 -> in();
            case 5 -> random.nextBoolean() ? one(OTHERS) : one(TEXTS) + " IS" + not() + " NULL";
            case 6 -> "NOT (" + condition(depth - 1) + ")";
            case 7 -> "(" + condition(depth - 1) + " OR " + condition(depth - 1) + ")";
            default -> "(" + condition(depth - 1) + " AND " + condition(depth - 1) + ")";
        };
    }

    private String in() {
        return random.nextBoolean() ? one(NUMBERS) + not() + " IN (" + one(CONSTANTS) + ", " + one(CONSTANTS) + ")"
                : one(TEXTS) + not() + " IN (" + one(WORDS) + ", " + one(WORDS) + ")";
    }

    private String number() {
        String value = one(NUMBERS);
        return switch (random.nextInt(4)) {
            case 0 -> one(CONSTANTS);
            case 1 -> value + " " + one(new String[] {"+", "-", "*"}) + " "
                    + one(new String[] {"1", "2", "3", "o.amount"});
            default -> value;
        };
    }

    private String text() {
        return random.nextInt(3) == 0 ? one(WORDS) : one(TEXTS);
    }

    private String not() {
        return random.nextInt(3) == 0 ? " NOT" : "";
    }

    private String one(String[] all) {
        return all[random.nextInt(all.length)];
    }
}
