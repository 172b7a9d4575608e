package karzhoul.jpa.query;

import jakarta.persistence.PersistenceException;
import java.math.BigDecimal;
import java.math.BigInteger;
import java.math.MathContext;

/** Arithmetic with Java's numeric promotion (chapter 4.7.1); what leaves its type's range is refused. */
final class Numbers {
    private Numbers() {}

    static Object signed(boolean isMinus, Number number) {
        return isMinus ? arithmetic('-', 0, number) : number instanceof Short || number instanceof Byte
                ? (Object) number.intValue() : number;
    }

    /** A sum, difference, product or quotient. */
    static Number arithmetic(char sign, Number a, Number b) {
        Class<?> java = Type.promoted(Type.of(a.getClass()), Type.of(b.getClass())).java();
        try {
            if (java == Double.class) {
                return doubles(sign, a.doubleValue(), b.doubleValue());
            } else if (java == Float.class) {
                return doubles(sign, a.floatValue(), b.floatValue()).floatValue();
            } else if (java == BigDecimal.class) {
                return decimals(sign, Conversions.decimal(a), Conversions.decimal(b));
            } else if (java == BigInteger.class) {
                return wholes(sign, Conversions.decimal(a).toBigInteger(), Conversions.decimal(b).toBigInteger());
            }
            Long exact = longs(sign, a.longValue(), b.longValue());
            return java == Integer.class ? (Number) Math.toIntExact(exact) : (Number) exact;
        } catch (ArithmeticException e) {
            throw new PersistenceException("Overflow: " + a + " " + sign + " " + b + ": " + e.getMessage(), e);
        }
    }

    private static Double doubles(char sign, double a, double b) {
        if (sign == '/' && b == 0) {
            throw new ArithmeticException("division by zero");
        }
        return switch (sign) {
            case '+' -> a + b;
            case '-' -> a - b;
            case '*' -> a * b;
            default -> a / b;
        };
    }

    private static BigDecimal decimals(char sign, BigDecimal a, BigDecimal b) {
        return switch (sign) {
            case '+' -> a.add(b);
            case '-' -> a.subtract(b);
            case '*' -> a.multiply(b);
            default -> a.divide(b, MathContext.DECIMAL128);
        };
    }

    private static BigInteger wholes(char sign, BigInteger a, BigInteger b) {
        return switch (sign) {
            case '+' -> a.add(b);
            case '-' -> a.subtract(b);
            case '*' -> a.multiply(b);
            default -> a.divide(b);
        };
    }

    private static Long longs(char sign, long a, long b) {
        return switch (sign) {
            case '+' -> Math.addExact(a, b);
            case '-' -> Math.subtractExact(a, b);
            case '*' -> Math.multiplyExact(a, b);
            default -> a == Long.MIN_VALUE && b == -1 ? Math.negateExact(a) : a / b;
        };
    }

    /** Which of two numbers is the greater one. */
    static int compare(Number a, Number b) {
        boolean isFloating = a instanceof Double || a instanceof Float || b instanceof Double || b instanceof Float;
        if (isFloating && !isExact(a) && !isExact(b)) {
            double x = a.doubleValue();
            double y = b.doubleValue();
            return x == y ? 0 : Double.compare(x, y);
        }
        return Conversions.decimal(a).compareTo(Conversions.decimal(b));
    }

    private static boolean isExact(Number number) {
        return !(number instanceof Double || number instanceof Float);
    }

    /** A sum that is divided by a count, as AVG is: a Double. */
    static Double average(Number sum, long count) {
        return sum instanceof Double twice ? twice / count
                : Conversions.decimal(sum).divide(BigDecimal.valueOf(count), MathContext.DECIMAL128).doubleValue();
    }
}
