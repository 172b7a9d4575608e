package desk.orders;

import jakarta.persistence.Embeddable;
import java.io.Serializable;
import java.util.Objects;

/** Where a line stands: the order's id, which comes of the line's order, and a number in it. */
@Embeddable
public class OrderLineId implements Serializable {
    private static final long serialVersionUID = 1L;
    private Long order;
    private int line;

    protected OrderLineId() {}

    OrderLineId(int line) {
        this.line = line;
    }

    public OrderLineId(Long order, int line) {
        this.order = order;
        this.line = line;
    }

    public int line() {
        return line;
    }

    @Override
    public boolean equals(Object other) {
        return other instanceof OrderLineId id && Objects.equals(order, id.order) && line == id.line;
    }

    @Override
    public int hashCode() {
        return Objects.hash(order, line);
    }
}
