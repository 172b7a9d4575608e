package house;

import jakarta.persistence.Embedded;
import jakarta.persistence.Entity;
import jakarta.persistence.ManyToOne;
import jakarta.persistence.Transient;

/** Someone, by fields. */
@Entity
public class Person extends Base<Long> {
    /** How one is. */
    public enum Mood { GLAD, SAD }

    String firstName;
    int age;
    boolean active;
    byte[] picture;
    Mood mood;
    @Embedded
    Contact contact = new Contact();
    @ManyToOne
    House home;
    @Transient
    String unkept;

    protected Person() {}

    Person(long key, String firstName, int age) {
        this.key = key;
        this.firstName = firstName;
        this.age = age;
    }
}
