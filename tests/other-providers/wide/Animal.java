package wide;

import jakarta.persistence.DiscriminatorColumn;
import jakarta.persistence.DiscriminatorValue;
import jakarta.persistence.Entity;
import jakarta.persistence.Id;

/** One table for all, and columns that classes beside each other share. */
@Entity
@DiscriminatorColumn(name = "kind")
@DiscriminatorValue("animal")
public class Animal {
    @Id String name;

    protected Animal() {}

    Animal(String name) {
        this.name = name;
    }

    @Override
    public String toString() {
        return "animal " + name;
    }
}
