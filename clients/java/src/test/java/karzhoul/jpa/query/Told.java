package karzhoul.jpa.query;

import java.math.BigDecimal;
import java.math.MathContext;
import java.util.ArrayList;
import java.util.Collections;
import java.util.List;
import java.util.StringJoiner;

/** Rows as tests write them: each number with its type, and without ORDER BY sorted as texts. */
public final class Told {
    private static final MathContext DIGITS = new MathContext(12);

    private Told() {}

    public static String one(Object value) {
        if (value instanceof Object[] items) {
            StringJoiner told = new StringJoiner(", ", "[", "]");
            for (Object item : items) {
                told.add(one(item));
            }
            return told.toString();
        }
        if (value instanceof Double || value instanceof Float) {
            BigDecimal rounded = BigDecimal.valueOf(((Number) value).doubleValue()).round(DIGITS).stripTrailingZeros();
            return value.getClass().getSimpleName() + " " + rounded.toPlainString();
        }
        if (value instanceof BigDecimal decimal) {
            return "BigDecimal " + (decimal.signum() == 0 ? "0" : decimal.stripTrailingZeros().toPlainString());
        }
        if (value instanceof Number) {
            return value.getClass().getSimpleName() + " " + value;
        }
        return value instanceof Class<?> type ? type.getSimpleName() : String.valueOf(value);
    }

    public static String rows(List<?> rows, boolean isOrdered) {
        List<String> told = new ArrayList<>();
        rows.forEach(row -> told.add(one(row)));
        if (!isOrdered) {
            Collections.sort(told);
        }
        return told.toString();
    }
}
