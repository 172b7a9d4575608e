package shop;

import jakarta.persistence.Column;
import jakarta.persistence.ElementCollection;
import jakarta.persistence.Entity;
import jakarta.persistence.Id;
import jakarta.persistence.ManyToOne;
import jakarta.persistence.Version;
import java.time.LocalDate;
import java.util.ArrayList;
import java.util.List;

/** A person who is known by the name, with a day of birth that no two share, and without a fax. */
@Entity
class Person {
    @Id String name;
    @Version int version;
    @Column(nullable = false, unique = true) LocalDate born;
    @ManyToOne Person friend;
    @ElementCollection List<String> words = new ArrayList<>();

    protected Person() {}

    Person(String name, LocalDate born) {
        this.name = name;
        this.born = born;
    }
}
