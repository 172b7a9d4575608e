package desk.orders;

import java.util.Locale;

/** How far an order is. */
public enum OrderStatus {
    CANCELLED,
    PLACED,
    SHIPPED;

    @Override
    public String toString() {
        return name().toLowerCase(Locale.ROOT);
    }
}
