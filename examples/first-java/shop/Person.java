package shop;

import jakarta.persistence.CascadeType;
import jakarta.persistence.Entity;
import jakarta.persistence.GeneratedValue;
import jakarta.persistence.Id;
import jakarta.persistence.OneToMany;
import jakarta.persistence.Version;
import java.util.ArrayList;
import java.util.List;

@Entity
public class Person {
    @Id @GeneratedValue Long id;
    @Version int version;
    String name;
    @OneToMany(mappedBy = "person", cascade = CascadeType.ALL, orphanRemoval = true)
    List<Order> orders = new ArrayList<>();

    protected Person() {}

    Person(String name) {
        this.name = name;
    }

    void orders(long number, int amount) {
        orders.add(new Order(number, amount, this));
    }
}
