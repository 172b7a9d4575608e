package wide;

import jakarta.persistence.EmbeddedId;
import jakarta.persistence.Entity;

/** What has an embedded id. */
@Entity
public class Seat {
    @EmbeddedId SeatId at;

    protected Seat() {}

    Seat(SeatId at) {
        this.at = at;
    }

    @Override
    public String toString() {
        return "seat " + at;
    }
}
