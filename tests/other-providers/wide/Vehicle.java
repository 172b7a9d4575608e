package wide;

import jakarta.persistence.Entity;
import jakarta.persistence.GeneratedValue;
import jakarta.persistence.Id;
import jakarta.persistence.Inheritance;
import jakarta.persistence.InheritanceType;
import jakarta.persistence.Version;

/** A table for each class, joined by the key. */
@Entity
@Inheritance(strategy = InheritanceType.JOINED)
public class Vehicle {
    @Id @GeneratedValue Long id;
    @Version int version;
    String plate;

    protected Vehicle() {}

    Vehicle(String plate) {
        this.plate = plate;
    }

    @Override
    public String toString() {
        return "vehicle " + plate + " version " + version;
    }
}
