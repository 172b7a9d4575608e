package wide;

import jakarta.persistence.Column;
import jakarta.persistence.Embeddable;
import java.io.Serializable;
import java.util.Objects;

/** A key of two parts. */
@Embeddable
public class SeatId implements Serializable {
    private static final long serialVersionUID = 1L;
    int line;
    @Column(name = "at_side") String side;

    protected SeatId() {}

    SeatId(int line, String side) {
        this.line = line;
        this.side = side;
    }

    @Override
    public boolean equals(Object other) {
        return other instanceof SeatId id && id.line == line && id.side.equals(side);
    }

    @Override
    public int hashCode() {
        return Objects.hash(line, side);
    }

    @Override
    public String toString() {
        return line + side;
    }
}
