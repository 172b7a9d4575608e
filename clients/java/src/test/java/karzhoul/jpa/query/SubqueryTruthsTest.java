package karzhoul.jpa.query;

import static org.junit.jupiter.api.Assertions.assertEquals;

import java.math.BigDecimal;
import java.util.ArrayList;
import java.util.List;
import java.util.Map;
import java.util.Objects;
import java.util.function.BiPredicate;
import org.junit.jupiter.params.ParameterizedTest;
import org.junit.jupiter.params.provider.ValueSource;

/**
 * What is compared with ALL, ANY, IN, MAX and MIN of a subquery, plain and under NOT, over values and rows with nulls:
 * each against three truths worked out here by the standard's words (chapters 4.6.9, 4.6.16 and 4.8.5).
 */
class SubqueryTruthsTest extends OverShop {
    /** An order of {@link Shopping}. */
    private record Row(long number, Integer amount, String price, String status, Integer person) {
        BigDecimal get(String name) {
            Object value = name.equals("number") ? (Object) number : name.equals("amount") ? amount : price;
            return value == null ? null : new BigDecimal(value.toString());
        }
    }

    private static final List<Row> ROWS = List.of(new Row(10, 5, "1.50", "OPEN", 1), new Row(11, 7, "2.25", "PAID", 1),
        new Row(12, null, null, null, null), new Row(13, 7, "10.00", "SENT", 2), new Row(14, 1, "0.10", "OPEN", 3));

    /** The conditions of the subquery, over its row q and the outer o. */
    private static final Map<String, BiPredicate<Row, Row>> FILTERS = Map.of(
        "q.number < 99", (q, o) -> true,
        "q.number > 99", (q, o) -> false,
        "q.number < o.number", (q, o) -> q.number < o.number,
        "q.amount = o.amount", (q, o) -> q.amount != null && q.amount.equals(o.amount),
        "q.status = karzhoul.jpa.query.Shop.Status.OPEN", (q, o) -> "OPEN".equals(q.status),
        "q.person = o.person", (q, o) -> q.person != null && q.person.equals(o.person));

    private static final List<String> SIGNS = List.of("=", "<>", "<", "<=", ">", ">=");

    @ParameterizedTest
    @ValueSource(strings = {"amount amount", "price amount", "number amount", "amount number"})
    void areThoseOfTheStandard(String names) {
        String x = names.split(" ")[0];
        String y = names.split(" ")[1];
        List<String> wrong = new ArrayList<>();
        for (String filter : FILTERS.keySet()) {
            String from = " FROM Order q WHERE " + filter + ")";
            for (String form : List.of("IN", "NOT IN")) {
                check(wrong, "o." + x + " " + form + " (SELECT q." + y + from, form, "=", x, y, filter);
            }
            for (String sign : SIGNS) {
                for (String form : List.of("ALL", "ANY")) {
                    check(wrong, "o." + x + " " + sign + " " + form + " (SELECT q." + y + from, form, sign, x, y,
                            filter);
                }
                for (String form : List.of("MAX", "MIN")) {
                    check(wrong, "o." + x + " " + sign + " (SELECT " + form + "(q." + y + ")" + from, form, sign, x, y,
                            filter);
                }
            }
        }
        assertEquals(List.of(), wrong);
    }

    private void check(List<String> wrong, String test, String form, String sign, String x, String y, String filter) {
        for (boolean isNot : new boolean[] {false, true}) {
            List<Long> expected = new ArrayList<>();
            for (Row o : ROWS) {
                List<BigDecimal> all = new ArrayList<>();
                ROWS.stream().filter(q -> FILTERS.get(filter).test(q, o)).forEach(q -> all.add(q.get(y)));
                Boolean truth = truth(form, sign, o.get(x), all);
                if (truth != null && truth != isNot) {
                    expected.add(o.number);
                }
            }
            String text = "SELECT o.number FROM Order o WHERE " + (isNot ? "NOT (" + test + ")" : test)
                    + " ORDER BY o.number";
            List<?> found = manager.createQuery(text).getResultList();
            if (!found.equals(expected)) {
                wrong.add(text + " is " + found + ", not " + expected);
            }
        }
    }

    private static Boolean truth(String form, String sign, BigDecimal x, List<BigDecimal> all) {
        return switch (form) {
            case "ALL" -> joined(false, sign, x, all);
            case "NOT IN" -> joined(false, "<>", x, all);
            case "ANY", "IN" -> joined(true, sign, x, all);
            default -> compared(sign, x, all.stream().filter(Objects::nonNull)
                .reduce((a, b) -> form.equals("MAX") == a.compareTo(b) > 0 ? a : b).orElse(null));
        };
    }

    /** Of ANY one is true, of ALL none is false; else it is unknown where one is. */
    private static Boolean joined(boolean isAny, String sign, BigDecimal x, List<BigDecimal> all) {
        Boolean found = !isAny;
        for (BigDecimal y : all) {
            Boolean truth = compared(sign, x, y);
            if (truth != null && truth == isAny) {
                return isAny;
            }
            found = truth == null ? null : found;
        }
        return found;
    }

    private static Boolean compared(String sign, BigDecimal x, BigDecimal y) {
        if (x == null || y == null) {
            return null;
        }
        int order = x.compareTo(y);
        return switch (sign) {
            case "=" -> order == 0;
            case "<>" -> order != 0;
            case "<" -> order < 0;
            case "<=" -> order <= 0;
            case ">" -> order > 0;
            default -> order >= 0;
        };
    }
}
