package karzhoul.jpa.query;

import karzhoul.jpa.query.Tree.Aggregate;
import karzhoul.jpa.query.Tree.Average;
import karzhoul.jpa.query.Tree.Select;
import karzhoul.jpa.query.Tree.Value;

/** Makes of AVG a sum and a count, which the program has; the door divides. */
final class Averages extends Rewriting {
    @Override
    Value value(Value value) {
        if (value instanceof Aggregate of && of.kind() == Aggregate.Kind.AVG) {
            return new Average(of.at(), new Aggregate(of.at(), Aggregate.Kind.SUM, of.isDistinct(), of.operand()),
                    new Aggregate(of.at(), Aggregate.Kind.COUNT, of.isDistinct(), of.operand()));
        }
        return valueWithin(value);
    }

    @Override
    Select select(Select select) {
        return selectWithin(select);
    }
}
