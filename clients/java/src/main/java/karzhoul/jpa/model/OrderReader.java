package karzhoul.jpa.model;

import jakarta.persistence.OrderBy;
import jakarta.persistence.OrderColumn;
import java.util.ArrayList;
import java.util.List;
import java.util.Optional;

/** Reads {@code @OrderColumn} of relations, once these lead to their targets (chapter 11.1.43). */
final class OrderReader {
    private final Faults faults;
    private final Names entityNames;

    /** @param entityNames the names that entities of the mapping have already */
    OrderReader(Faults faults, Names entityNames) {
        this.faults = faults;
        this.entityNames = entityNames;
    }

    /** Gives lists their orders; answers the entities of the mapping that these need. */
    List<PlainEntity> read(List<PlainEntity> entities) {
        List<PlainEntity> all = new ArrayList<>();
        for (PlainEntity entity : entities) {
            for (PlainRelation relation : entity.ownRelations()) {
                Optional<OrderColumn> column = relation.said().declared().find(OrderColumn.class);
                if (column.isPresent() && relation.elements().isEmpty() && isWell(relation)) {
                    ListOrder order = order(entity, relation, column.get());
                    relation.isOrderedBy(order);
                    all.add(order.rows());
                }
            }
        }
        return all;
    }

    private boolean isWell(PlainRelation relation) {
        Member member = relation.said().declared();
        if (relation.container() != Relation.Container.LIST) {
            faults.add(member, "@OrderColumn orders a List", "Declare it as List");
        } else if (member.has(OrderBy.class)) {
            faults.add(member, "it has @OrderColumn and @OrderBy", "Leave one of them");
        }
        return relation.target() != null && relation.container() == Relation.Container.LIST;
    }

    private ListOrder order(PlainEntity entity, PlainRelation relation, OrderColumn said) {
        String column = said.name().isEmpty() ? relation.path() + "_ORDER" : said.name();
        PlainRelation owner = relation.mappedBy().map(PlainRelation.class::cast).orElse(relation);
        boolean isJoined = owner.isMany();
        String table = isJoined ? "join table " + owner.storedName() : "table " + ((PlainEntity) relation.target()).table();
        return new ListOrder("order " + column + " of the " + table,
                entityNames.give("order_" + entity.name() + "_" + relation.path()),
                entity.declaredAt() + "." + relation.path());
    }
}
