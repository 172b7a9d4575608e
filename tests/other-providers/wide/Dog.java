package wide;

import jakarta.persistence.Entity;

/** Another that has a weight. */
@Entity
public class Dog extends Animal {
    Integer weight;

    protected Dog() {}

    Dog(String name, Integer weight) {
        super(name);
        this.weight = weight;
    }

    @Override
    public String toString() {
        return "dog " + name + " of " + weight;
    }
}
