package desk.orders;

import jakarta.persistence.AttributeConverter;
import jakarta.persistence.Converter;

/** Keeps a status as a number, which stays what it is where the enum gets other constants. */
@Converter(autoApply = true)
public class OrderStatusConverter implements AttributeConverter<OrderStatus, Integer> {
    @Override
    public Integer convertToDatabaseColumn(OrderStatus status) {
        return status == null ? null : switch (status) {
            case CANCELLED -> 1;
            case PLACED -> 2;
            case SHIPPED -> 3;
        };
    }

    @Override
    public OrderStatus convertToEntityAttribute(Integer kept) {
        return kept == null ? null : switch (kept) {
            case 1 -> OrderStatus.CANCELLED;
            case 2 -> OrderStatus.PLACED;
            case 3 -> OrderStatus.SHIPPED;
            default -> throw new IllegalArgumentException(kept + " is no status of an order");
        };
    }
}
