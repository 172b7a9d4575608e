package shop;

import jakarta.persistence.ElementCollection;
import jakarta.persistence.Entity;
import jakarta.persistence.GeneratedValue;
import jakarta.persistence.Id;
import jakarta.persistence.ManyToOne;
import jakarta.persistence.Version;
import java.util.ArrayList;
import java.util.List;

/** A person with a number, whose birthday is a text. */
@Entity
class Person {
    @Id @GeneratedValue Long id;
    @Version int version;
    String name;
    String born;
    String fax;
    @ManyToOne Person friend;
    @ElementCollection List<String> words = new ArrayList<>();

    protected Person() {}

    Person(String name, String born, Person friend) {
        this.name = name;
        this.born = born;
        this.friend = friend;
        words.add("word of " + name);
    }
}
