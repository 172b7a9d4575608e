package karzhoul.jpa.shop;

import jakarta.persistence.DiscriminatorValue;
import jakarta.persistence.Entity;

/** A person with a discount. */
@Entity
@DiscriminatorValue("V")
public class Vip extends Person {
    private Integer discount;

    protected Vip() {}

    public Vip(String name, int discount) {
        super(name);
        this.discount = discount;
    }

    public Integer getDiscount() {
        return discount;
    }
}
