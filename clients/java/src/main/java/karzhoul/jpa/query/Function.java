package karzhoul.jpa.query;

import java.util.HashMap;
import java.util.Locale;
import java.util.Map;

/** The functions of the language (chapters 4.7.2 and 4.7.10). */
public enum Function {
    LENGTH(1, 1), CONCAT(2, 99), SUBSTRING(2, 3), LOCATE(2, 3), ABS(1, 1), MOD(2, 2), SIZE(1, 1), COALESCE(2, 99), NULLIF(2, 2),
    UPPER(1, 1), LOWER(1, 1), SQRT(1, 1), CEILING(1, 1), FLOOR(1, 1), EXP(1, 1), LN(1, 1), SIGN(1, 1), POWER(2, 2), ROUND(2, 2),
    /** TRIM by the side, the character and the text. */
    TRIM(3, 3),
    /** EXTRACT by the field, a literal text, and the time. */
    EXTRACT(2, 2);

    private static final Map<String, Function> BY_NAME = new HashMap<>();

    static {
        for (Function function : values()) {
            BY_NAME.put(function.name(), function);
        }
    }

    final int least;
    final int most;

    Function(int least, int most) {
        this.least = least;
        this.most = most;
    }

    /** Whether the program has it. */
    boolean isKept() {
        return this == SIZE || Grammar.PROGRAM.function(name()) != null;
    }

    /** The function of a name in any case, or null. */
    static Function named(String name) {
        return BY_NAME.get(name.toUpperCase(Locale.ROOT));
    }
}
