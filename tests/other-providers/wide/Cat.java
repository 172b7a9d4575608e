package wide;

import jakarta.persistence.Entity;

/** One that has a weight. */
@Entity
public class Cat extends Animal {
    Integer weight;

    protected Cat() {}

    Cat(String name, Integer weight) {
        super(name);
        this.weight = weight;
    }

    @Override
    public String toString() {
        return "cat " + name + " of " + weight;
    }
}
