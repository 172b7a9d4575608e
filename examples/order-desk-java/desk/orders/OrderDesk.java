package desk.orders;

import static desk.common.Transactions.found;
import static desk.common.Transactions.within;

import desk.catalog.Product;
import desk.common.DeskException;
import desk.customers.Customer;
import jakarta.persistence.EntityManager;
import jakarta.persistence.LockModeType;
import java.time.LocalDate;
import java.util.Map;

/** What the desk does with orders, each in a transaction of its own. */
public final class OrderDesk {
    private final EntityManager manager;

    public OrderDesk(EntityManager manager) {
        this.manager = manager;
    }

    /** Places an order for products by their SKU, and takes them out of the stock. */
    public Order place(long customer, Map<String, Long> wanted, LocalDate day) {
        return within(manager, () -> {
            var order = new Order(found(manager, Customer.class, customer), day);
            manager.persist(order);
            take(order, wanted);
            if (order.lines().isEmpty()) {
                throw new DeskException("an order takes one product at least");
            }
            return order;
        });
    }

    /** Sets how much an order takes of products; with a quantity of 0 a line goes. */
    public Order change(long id, Map<String, Long> wanted) {
        return within(manager, () -> {
            var order = open(id);
            // The list of lines isn't stored with the order, so a change of it alone raises no version.
            manager.lock(order, LockModeType.OPTIMISTIC_FORCE_INCREMENT);
            take(order, wanted);
            if (order.lines().isEmpty()) {
                throw new DeskException("nothing is left of order " + id + ": cancel it");
            }
            return order;
        });
    }

    /** Ships an order, and answers its invoice. */
    public Invoice ship(long id, LocalDate day) {
        return within(manager, () -> open(id).ship(day));
    }

    /** Cancels an order, and puts its products back into the stock. */
    public Order cancel(long id) {
        return within(manager, () -> {
            var order = open(id);
            order.cancel();
            return order;
        });
    }

    /** Deletes a cancelled order; its lines go with it. */
    public Order delete(long id) {
        return within(manager, () -> {
            var order = found(manager, Order.class, id);
            if (order.status() != OrderStatus.CANCELLED) {
                throw new DeskException(
                        "order " + id + " is " + order.status() + ": cancel it before it is deleted");
            }
            manager.remove(order);
            return order;
        });
    }

    private Order open(long id) {
        var order = found(manager, Order.class, id);
        if (order.status() != OrderStatus.PLACED) {
            throw new DeskException("order " + id + " is " + order.status() + ", and stays as it is");
        }
        return order;
    }

    private void take(Order order, Map<String, Long> wanted) {
        wanted.forEach((sku, quantity) -> order.take(found(manager, Product.class, sku), quantity));
    }
}
