package desk.reports;

import static desk.common.Transactions.found;

import desk.catalog.Category;
import desk.catalog.Product;
import desk.common.DeskException;
import desk.common.Money;
import desk.customers.Customer;
import desk.orders.Order;
import jakarta.persistence.EntityManager;
import java.util.Locale;
import java.util.stream.Collectors;

/** Orders, customers and products as they stand. */
public enum Shown {
    ORDER {
        @Override
        public String of(EntityManager manager, String key) {
            var order = found(manager, Order.class, number(key));
            var words = new StringBuilder();
            words.append("order ").append(order.id()).append(" of ").append(order.day()).append(", ")
                    .append(order.status()).append(", for ").append(order.customer().name());
            for (var line : order.lines()) {
                words.append("\n  ").append(line.line()).append(": ").append(line.quantity()).append(" of ")
                        .append(line.product().name()).append(" at ").append(Money.words(line.price()));
            }
            words.append("\n  total ").append(Money.words(order.total()))
                    .append(", changed ").append(order.changes()).append(" times");
            order.invoice().ifPresent(invoice -> words.append("\n  invoice ").append(invoice.number())
                    .append(" of ").append(invoice.day()));
            return words.toString();
        }
    },
    CUSTOMER {
        @Override
        public String of(EntityManager manager, String key) {
            var customer = found(manager, Customer.class, number(key));
            var words = new StringBuilder(customer.words());
            for (var order : customer.orders()) {
                words.append("\n  order ").append(order.id()).append(" of ").append(order.day()).append(", ")
                        .append(order.status()).append(": ").append(Money.words(order.total()));
            }
            return words.toString();
        }
    },
    PRODUCT {
        @Override
        public String of(EntityManager manager, String key) {
            var product = found(manager, Product.class, key);
            var categories = product.categories().stream().map(Category::title).sorted().collect(Collectors.joining(", "));
            return "product " + product.sku() + ": " + product.name() + " at " + Money.words(product.price())
                    + ", " + product.stock() + " in stock\n  in "
                    + (categories.isEmpty() ? "no category" : categories);
        }
    };

    /** What stands under this key; a {@link DeskException} where nothing does. */
    public abstract String of(EntityManager manager, String key);

    @Override
    public String toString() {
        return name().toLowerCase(Locale.ROOT);
    }

    long number(String key) {
        if (!key.matches("[0-9]{1,18}")) {
            throw new DeskException("there is no " + this + " " + key);
        }
        return Long.parseLong(key);
    }
}
