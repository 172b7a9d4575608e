package desk.common;

import java.math.BigDecimal;
import java.math.RoundingMode;

/** Sums of money: decimals of two places. */
public final class Money {
    public static final int SCALE = 2;
    public static final BigDecimal NOTHING = BigDecimal.ZERO.setScale(SCALE);

    private Money() {}

    /** A sum as a clerk reads it, as {@code 12.50}. Databases without decimals, as SQLite, sum up near to it. */
    public static String words(BigDecimal sum) {
        return sum.setScale(SCALE, RoundingMode.HALF_EVEN).toPlainString();
    }
}
