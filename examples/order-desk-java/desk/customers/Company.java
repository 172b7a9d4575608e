package desk.customers;

import jakarta.persistence.Column;
import jakarta.persistence.DiscriminatorValue;
import jakarta.persistence.Entity;

/** A customer with a VAT number. */
@Entity
@DiscriminatorValue("C")
public class Company extends Customer {
    @Column(nullable = false) private String vat;

    protected Company() {}

    public Company(long number) {
        super(number);
    }

    public void register(String vat) {
        this.vat = vat;
    }

    @Override
    public String words() {
        return "company " + number() + ": " + name() + ", " + city() + ", VAT " + vat;
    }
}
