package clinic.billing;

import jakarta.persistence.Column;
import jakarta.persistence.Entity;
import jakarta.persistence.FetchType;
import jakarta.persistence.GeneratedValue;
import jakarta.persistence.Id;
import jakarta.persistence.ManyToOne;
import java.math.BigDecimal;

/** One thing of an invoice, so many times at a price. */
@Entity
public class InvoiceLine {
    @Id @GeneratedValue private Long id;
    @ManyToOne(optional = false, fetch = FetchType.LAZY)
    private Invoice invoice;
    private int place;
    @Column(nullable = false) private String text;
    private int quantity;
    @Column(nullable = false, precision = 12, scale = 2)
    private BigDecimal price;

    protected InvoiceLine() {}

    InvoiceLine(Invoice invoice, int place, LineForm form) {
        this.invoice = invoice;
        this.place = place;
        this.text = form.text();
        this.quantity = form.quantity();
        this.price = form.price().setScale(2);
    }

    BigDecimal total() {
        return price.multiply(BigDecimal.valueOf(quantity));
    }

    LineForm form() {
        return new LineForm(text, quantity, price);
    }
}
