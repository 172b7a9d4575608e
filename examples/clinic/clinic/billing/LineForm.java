package clinic.billing;

import clinic.common.Checks;
import java.math.BigDecimal;

/** A line of an invoice. */
public record LineForm(String text, Integer quantity, BigDecimal price) {
    private static final BigDecimal MOST = new BigDecimal("1000000");

    void check(Checks checks, String field) {
        checks.filled(field + "text", text, 200)
                .that(quantity != null && quantity >= 1 && quantity <= 1000, field + "quantity", "is none of 1 to 1000")
                .that(price != null && price.signum() >= 0 && price.compareTo(MOST) <= 0, field + "price",
                        "is none of 0 to " + MOST)
                .that(price == null || price.stripTrailingZeros().scale() <= 2, field + "price", "has more than two decimals");
    }
}
