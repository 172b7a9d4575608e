package shop;

import jakarta.persistence.Entity;
import jakarta.persistence.FetchType;
import jakarta.persistence.GeneratedValue;
import jakarta.persistence.Id;
import jakarta.persistence.ManyToOne;

/** An entity with private fields, and a relation that is read when it is looked at. */
@Entity
class Person {
    @Id @GeneratedValue private Long id;
    private String name;
    @ManyToOne(fetch = FetchType.LAZY) private Person friend;

    protected Person() {}

    Person(String name, Person friend) {
        this.name = name;
        this.friend = friend;
    }

    Long id() {
        return id;
    }

    String name() {
        return name;
    }

    Person friend() {
        return friend;
    }
}
