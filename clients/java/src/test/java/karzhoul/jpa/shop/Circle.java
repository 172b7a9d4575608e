package karzhoul.jpa.shop;

import jakarta.persistence.CascadeType;
import jakarta.persistence.Entity;
import jakarta.persistence.FetchType;
import jakarta.persistence.Id;
import jakarta.persistence.ManyToMany;
import jakarta.persistence.ManyToOne;
import java.util.HashSet;
import java.util.Objects;
import java.util.Set;

/** Leads to others of its kind by EAGER relations, in circles, and is hashed by what it has. */
@Entity
public class Circle {
    @Id
    private int number;

    private String name;

    @ManyToOne(cascade = CascadeType.PERSIST)
    private Circle next;

    @ManyToMany(fetch = FetchType.EAGER, cascade = CascadeType.PERSIST)
    private Set<Circle> friends = new HashSet<>();

    protected Circle() {}

    public Circle(int number, String name) {
        this.number = number;
        this.name = name;
    }

    public int getNumber() {
        return number;
    }

    public String getName() {
        return name;
    }

    public Circle getNext() {
        return next;
    }

    public void setNext(Circle next) {
        this.next = next;
    }

    public Set<Circle> getFriends() {
        return friends;
    }

    @Override
    public boolean equals(Object other) {
        return other instanceof Circle circle && circle.number == number && Objects.equals(circle.name, name);
    }

    @Override
    public int hashCode() {
        return Objects.requireNonNull(name, "hashed before it was filled").hashCode();
    }
}
