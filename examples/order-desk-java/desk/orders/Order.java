package desk.orders;

import desk.catalog.Product;
import desk.common.DeskException;
import desk.common.Journal;
import desk.common.Money;
import desk.customers.Customer;
import jakarta.persistence.CascadeType;
import jakarta.persistence.Column;
import jakarta.persistence.Entity;
import jakarta.persistence.EntityListeners;
import jakarta.persistence.FetchType;
import jakarta.persistence.GeneratedValue;
import jakarta.persistence.Id;
import jakarta.persistence.ManyToOne;
import jakarta.persistence.OneToMany;
import jakarta.persistence.OneToOne;
import jakarta.persistence.OrderBy;
import jakarta.persistence.Table;
import jakarta.persistence.Version;
import java.math.BigDecimal;
import java.time.LocalDate;
import java.util.ArrayList;
import java.util.List;
import java.util.Optional;

/** Products for a customer. Its lines and its invoice live and go with it. */
@Entity
@Table(name = "orders")
@EntityListeners({OrderHistory.class, Journal.class})
public class Order {
    @Id @GeneratedValue private Long id;
    @Version private int version;
    @Column(nullable = false) private OrderStatus status;
    @Column(nullable = false) private LocalDate day;
    private int changes;
    @ManyToOne(optional = false, fetch = FetchType.LAZY)
    private Customer customer;
    @OneToMany(mappedBy = "order", cascade = CascadeType.ALL, orphanRemoval = true)
    @OrderBy("at.line")
    private List<OrderLine> lines = new ArrayList<>();
    @OneToOne(mappedBy = "order", cascade = CascadeType.ALL)
    private Invoice invoice;

    protected Order() {}

    public Order(Customer customer, LocalDate day) {
        this.customer = customer;
        this.day = day;
    }

    public Long id() {
        return id;
    }

    public OrderStatus status() {
        return status;
    }

    public LocalDate day() {
        return day;
    }

    public int changes() {
        return changes;
    }

    public Customer customer() {
        return customer;
    }

    public List<OrderLine> lines() {
        return lines;
    }

    public Optional<Invoice> invoice() {
        return Optional.ofNullable(invoice);
    }

    public BigDecimal total() {
        return lines.stream().map(OrderLine::total).reduce(Money.NOTHING, BigDecimal::add);
    }

    /** Has the order take so much of a product, out of the stock; with 0 its line goes. */
    public void take(Product product, long quantity) {
        if (quantity < 0) {
            throw new DeskException(quantity + " of " + product.sku() + " can't be ordered");
        }
        var line = lineOf(product);
        product.take(quantity - line.map(OrderLine::quantity).orElse(0L));
        if (line.isEmpty() && quantity > 0) {
            var last = lines.stream().mapToInt(OrderLine::line).max().orElse(0);
            lines.add(new OrderLine(this, last + 1, product, quantity));
        } else if (quantity > 0) {
            line.get().set(quantity);
        } else {
            line.ifPresent(lines::remove); // An orphan by that, which the commit removes.
        }
    }

    /** Ships the order: an invoice is made, and persisted along with it. */
    public Invoice ship(LocalDate day) {
        status = OrderStatus.SHIPPED;
        invoice = new Invoice(this, day);
        return invoice;
    }

    /** Cancels the order, and puts its products back into the stock. */
    public void cancel() {
        status = OrderStatus.CANCELLED;
        lines.forEach(line -> line.product().take(-line.quantity()));
    }

    void begin() {
        status = OrderStatus.PLACED;
    }

    void count() {
        changes++;
    }

    private Optional<OrderLine> lineOf(Product product) {
        return lines.stream().filter(line -> line.product().sku().equals(product.sku())).findFirst();
    }
}
