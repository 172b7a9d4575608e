package desk.orders;

import desk.common.Journal;
import desk.common.Money;
import jakarta.persistence.Column;
import jakarta.persistence.Entity;
import jakarta.persistence.EntityListeners;
import jakarta.persistence.GeneratedValue;
import jakarta.persistence.Id;
import jakarta.persistence.OneToOne;
import java.math.BigDecimal;
import java.time.LocalDate;

/** What a shipped order costs. */
@Entity
@EntityListeners(Journal.class)
public class Invoice {
    @Id @GeneratedValue private Long number;
    @Column(nullable = false) private LocalDate day;
    @Column(nullable = false, precision = 14, scale = Money.SCALE)
    private BigDecimal total;
    @OneToOne(optional = false) private Order order;

    protected Invoice() {}

    Invoice(Order order, LocalDate day) {
        this.order = order;
        this.day = day;
        this.total = order.total();
    }

    public Long number() {
        return number;
    }

    public LocalDate day() {
        return day;
    }

    public BigDecimal total() {
        return total;
    }
}
