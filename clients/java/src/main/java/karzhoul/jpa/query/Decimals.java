package karzhoul.jpa.query;

import java.math.BigDecimal;
import java.math.RoundingMode;

/** Numbers beside those that the program keeps as whole ones of some decimal places. */
final class Decimals {
    private static final int FAR = 60;

    private Decimals() {}

    /**
     * The number as a whole one of so many places.
     *
     * @throws IllegalArgumentException where it is no number, has more places, or is beyond 64 bits
     */
    static Long exact(Object value, int scale) {
        BigDecimal number = near(decimal(value));
        if (number.stripTrailingZeros().scale() > scale) {
            throw new IllegalArgumentException(scale == 0 ? value + " is no whole number, as is computed with there"
                    : value + " has more than the " + scale + " decimal places that are computed with there");
        } else if (!isWithin(number, scale)) {
            throw new IllegalArgumentException(value + " with " + scale + " decimal places is beyond 64 bits");
        }
        return number.setScale(scale, RoundingMode.UNNECESSARY).unscaledValue().longValueExact();
    }

    /** The number itself. */
    static BigDecimal decimal(Object value) {
        if (value instanceof Number number) {
            return Conversions.decimal(number);
        }
        throw new IllegalArgumentException("a number is expected, and " + value + " is of "
                + value.getClass().getName());
    }

    /** The number, or where it is far beyond all that is kept one of its side that is too: so no power of ten grows. */
    private static BigDecimal near(BigDecimal value) {
        long digits = (long) value.precision() - value.scale();
        return value.signum() == 0 || Math.abs(digits) <= FAR ? value
                : BigDecimal.valueOf(value.signum()).scaleByPowerOfTen(digits > 0 ? FAR : -FAR);
    }

    /** Whether it is among the whole numbers of so many places, of 64 bits. */
    static boolean isExact(BigDecimal number, int scale) {
        BigDecimal value = near(number);
        return value.stripTrailingZeros().scale() <= scale && isWithin(value, scale);
    }

    private static boolean isWithin(BigDecimal value, int scale) {
        BigDecimal shifted = value.movePointRight(scale);
        return shifted.compareTo(BigDecimal.valueOf(Long.MAX_VALUE)) <= 0
                && shifted.compareTo(BigDecimal.valueOf(Long.MIN_VALUE)) >= 0;
    }

    /**
     * The whole number that an order comparison has the same answers with: {@code x < 2.5} is {@code x < 3}, and
     * {@code x > 2.5} is {@code x > 2}. Null where the number is beyond 64 bits.
     */
    static Long bound(BigDecimal number, int scale, String sign) {
        boolean isUp = sign.equals("<") || sign.equals(">=");
        BigDecimal bound = near(number).setScale(scale, isUp ? RoundingMode.CEILING : RoundingMode.FLOOR);
        return isWithin(bound, scale) ? bound.unscaledValue().longValueExact() : null;
    }
}
