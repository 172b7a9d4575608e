package karzhoul.jpa.shop;

import jakarta.persistence.Entity;
import jakarta.persistence.FetchType;
import jakarta.persistence.Id;
import jakarta.persistence.JoinColumn;
import jakarta.persistence.ManyToOne;
import jakarta.persistence.Table;
import java.io.Serializable;

/** What a person ordered; without a version. */
@Entity(name = "Order")
@Table(name = "orders")
public class Order implements Serializable {
    private static final long serialVersionUID = 1;

    @Id
    private Long number;

    private Long amount;

    @ManyToOne(fetch = FetchType.LAZY)
    @JoinColumn(name = "person_id")
    private Person person;

    @ManyToOne(fetch = FetchType.LAZY)
    private Depot depot;

    protected Order() {}

    public Order(long number, long amount) {
        this.number = number;
        this.amount = amount;
    }

    public Long getNumber() {
        return number;
    }

    public Long getAmount() {
        return amount;
    }

    public void setAmount(Long amount) {
        this.amount = amount;
    }

    public Person getPerson() {
        return person;
    }

    public void setPerson(Person person) {
        this.person = person;
    }

    public Depot getDepot() {
        return depot;
    }

    public void setDepot(Depot depot) {
        this.depot = depot;
    }

    @Override
    public String toString() {
        return "Order " + number;
    }
}
