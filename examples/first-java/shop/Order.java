package shop;

import jakarta.persistence.Entity;
import jakarta.persistence.FetchType;
import jakarta.persistence.Id;
import jakarta.persistence.ManyToOne;

@Entity
public class Order {
    @Id Long number;
    int amount;
    @ManyToOne(fetch = FetchType.LAZY, optional = false) Person person;

    protected Order() {}

    Order(long number, int amount, Person person) {
        this.number = number;
        this.amount = amount;
        this.person = person;
    }
}
