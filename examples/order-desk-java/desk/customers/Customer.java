package desk.customers;

import desk.common.Journal;
import desk.common.Named;
import desk.orders.Order;
import jakarta.persistence.Entity;
import jakarta.persistence.EntityListeners;
import jakarta.persistence.Id;
import jakarta.persistence.OneToMany;
import jakarta.persistence.OrderBy;
import java.util.ArrayList;
import java.util.List;

/** Who orders. */
@Entity
@EntityListeners(Journal.class)
public class Customer extends Named {
    @Id private Long number;
    private String city;
    @OneToMany(mappedBy = "customer")
    @OrderBy("id")
    private List<Order> orders = new ArrayList<>();

    protected Customer() {}

    public Customer(long number) {
        this.number = number;
    }

    public Long number() {
        return number;
    }

    public String city() {
        return city;
    }

    public void move(String city) {
        this.city = city;
    }

    public List<Order> orders() {
        return orders;
    }

    /** The customer in a line. */
    public String words() {
        return "customer " + number + ": " + name() + ", " + city;
    }
}
