package wide;

import jakarta.persistence.Embeddable;

/** Where someone lives. */
@Embeddable
public class Address {
    String street;
    String city;

    protected Address() {}

    Address(String street, String city) {
        this.street = street;
        this.city = city;
    }

    @Override
    public String toString() {
        return street + ", " + city;
    }
}
