package karzhoul.jpa.criteria;

import jakarta.persistence.criteria.Expression;
import jakarta.persistence.criteria.Order;

/** A key of ORDER BY (chapter 6.5.12). */
record OrderOf(Expression<?> getExpression, boolean isAscending) implements Order {
    @Override
    public Order reverse() {
        return new OrderOf(getExpression, !isAscending);
    }
}
