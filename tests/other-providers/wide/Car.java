package wide;

import jakarta.persistence.Column;
import jakarta.persistence.Entity;
import jakarta.persistence.JoinColumn;
import jakarta.persistence.JoinColumns;
import jakarta.persistence.ManyToOne;
import jakarta.persistence.Table;

/** A class below, in a table of its own. */
@Entity
@Table(name = "cars")
public class Car extends Vehicle {
    @Column(nullable = false) int doors;
    @ManyToOne
    @JoinColumns({
        @JoinColumn(name = "best_line", referencedColumnName = "line"),
        @JoinColumn(name = "best_side", referencedColumnName = "at_side")
    })
    Seat best;

    protected Car() {}

    Car(String plate, int doors, Seat best) {
        super(plate);
        this.doors = doors;
        this.best = best;
    }

    @Override
    public String toString() {
        return super.toString() + " with " + doors + " doors, best " + best;
    }
}
