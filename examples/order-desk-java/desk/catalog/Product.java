package desk.catalog;

import desk.common.DeskException;
import desk.common.Journal;
import desk.common.Money;
import desk.common.Named;
import jakarta.persistence.CascadeType;
import jakarta.persistence.Column;
import jakarta.persistence.Entity;
import jakarta.persistence.EntityListeners;
import jakarta.persistence.Id;
import jakarta.persistence.ManyToMany;
import java.math.BigDecimal;
import java.util.Collection;
import java.util.HashSet;
import java.util.Set;

/** What is sold. */
@Entity
@EntityListeners(Journal.class)
public class Product extends Named {
    @Id private String sku;
    @Column(nullable = false, precision = 14, scale = Money.SCALE)
    private BigDecimal price;
    private long stock;
    @ManyToMany(cascade = CascadeType.PERSIST)
    private Set<Category> categories = new HashSet<>();

    protected Product() {}

    public Product(String sku) {
        this.sku = sku;
    }

    public String sku() {
        return sku;
    }

    public BigDecimal price() {
        return price;
    }

    public long stock() {
        return stock;
    }

    public Set<Category> categories() {
        return categories;
    }

    /** Gives the product a price and a stock, in these categories and no others. */
    public void offer(BigDecimal price, long stock, Collection<Category> categories) {
        this.price = price;
        this.stock = stock;
        this.categories.retainAll(categories);
        this.categories.addAll(categories);
    }

    /** Takes so much out of the stock, and no more than there is; puts back what is below 0. */
    public void take(long quantity) {
        if (quantity > stock) {
            throw new DeskException(sku + ": " + stock + " in stock, and " + quantity + " more wanted");
        }
        stock -= quantity;
    }
}
