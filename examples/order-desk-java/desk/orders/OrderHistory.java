package desk.orders;

import jakarta.persistence.PrePersist;
import jakarta.persistence.PreUpdate;

/** A listener that assigns: a new order is placed, and its changes are counted. */
public class OrderHistory {
    @PrePersist
    void placed(Order order) {
        order.begin();
    }

    @PreUpdate
    void counted(Order order) {
        order.count();
    }
}
