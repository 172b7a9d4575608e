package karzhoul.jpa.query;

import java.util.List;
import karzhoul.jpa.model.Attribute;
import karzhoul.jpa.query.Tree.Aggregate;
import karzhoul.jpa.query.Tree.Reference;
import karzhoul.jpa.query.Tree.Value;

/** Where the door groups, counts a variable by its key: the objects themselves need not be loaded for that. */
final class Counts extends Rewriting {
    @Override
    Value value(Value value) {
        if (value instanceof Aggregate of && of.kind() == Aggregate.Kind.COUNT && of.operand() instanceof Reference path
                && path.isEntity() && path.steps().isEmpty()) {
            List<Attribute> key = path.entity().key().parts();
            if (key.size() == 1 || !of.isDistinct()) {
                Reference part = new Reference(path.at(), path.variable(), List.of(), key.get(0), false);
                return new Aggregate(of.at(), of.kind(), of.isDistinct(), part);
            }
        }
        return valueWithin(value);
    }
}
