package desk.orders;

import desk.catalog.Product;
import desk.common.Journal;
import desk.common.Money;
import jakarta.persistence.Column;
import jakarta.persistence.EmbeddedId;
import jakarta.persistence.Entity;
import jakarta.persistence.EntityListeners;
import jakarta.persistence.FetchType;
import jakarta.persistence.ManyToOne;
import jakarta.persistence.MapsId;
import java.math.BigDecimal;

/** How much of a product an order takes, at the price of its day. */
@Entity
@EntityListeners(Journal.class)
public class OrderLine {
    @EmbeddedId private OrderLineId at;
    @MapsId("order")
    @ManyToOne(optional = false, fetch = FetchType.LAZY)
    private Order order;
    @ManyToOne(optional = false, fetch = FetchType.LAZY)
    private Product product;
    private long quantity;
    @Column(nullable = false, precision = 14, scale = Money.SCALE)
    private BigDecimal price;

    protected OrderLine() {}

    OrderLine(Order order, int line, Product product, long quantity) {
        this.at = new OrderLineId(line);
        this.order = order;
        this.product = product;
        this.quantity = quantity;
        this.price = product.price();
    }

    public int line() {
        return at.line();
    }

    public Product product() {
        return product;
    }

    public long quantity() {
        return quantity;
    }

    public BigDecimal price() {
        return price;
    }

    public BigDecimal total() {
        return price.multiply(BigDecimal.valueOf(quantity));
    }

    void set(long quantity) {
        this.quantity = quantity;
    }
}
