package karzhoul.jpa.query;

import java.util.ArrayList;
import java.util.List;
import karzhoul.jpa.model.Attribute;
import karzhoul.jpa.query.Tree.And;
import karzhoul.jpa.query.Tree.Compare;
import karzhoul.jpa.query.Tree.Condition;
import karzhoul.jpa.query.Tree.Embedded;
import karzhoul.jpa.query.Tree.IsNull;
import karzhoul.jpa.query.Tree.Or;
import karzhoul.jpa.query.Tree.Parameter;
import karzhoul.jpa.query.Tree.PartOf;
import karzhoul.jpa.query.Tree.Reference;
import karzhoul.jpa.query.Tree.Value;

/**
 * Compares embedded keys by their parts, by which the program finds objects; and asks an embedded object whether all
 * that it has is null, since it is null then.
 */
final class WholeKeys extends Rewriting {
    @Override
    Condition condition(Condition condition) {
        if (condition instanceof Compare compare && compare.left() instanceof Reference key && key.isWholeKey()) {
            return compared(compare, key, compare.right());
        }
        if (condition instanceof Compare compare && compare.right() instanceof Reference key && key.isWholeKey()) {
            return compared(compare, key, compare.left());
        }
        if (condition instanceof IsNull of && of.value() instanceof Embedded whole) {
            List<Condition> parts = new ArrayList<>();
            whole.parts().forEach(part -> parts.add(new IsNull(of.at(), of.isNot(), part)));
            return of.isNot() ? new Or(of.at(), parts) : new And(of.at(), parts);
        }
        return conditionWithin(condition);
    }

    private static Condition compared(Compare compare, Reference key, Value other) {
        boolean isKey = other instanceof Reference path && path.isWholeKey();
        if (!isKey && !(other instanceof Parameter)) {
            return compare;
        }
        List<Condition> parts = new ArrayList<>();
        List<Attribute> attributes = key.entity().key().parts();
        for (int place = 0; place < attributes.size(); place++) {
            Value right = other instanceof Parameter parameter ? new PartOf(other.at(), parameter, key.entity(), place)
                    : part((Reference) other, place);
            parts.add(new Compare(compare.at(), compare.sign(), part(key, place), right));
        }
        return compare.sign().equals("=") ? new And(compare.at(), parts) : new Or(compare.at(), parts);
    }

    private static Reference part(Reference key, int place) {
        return new Reference(key.at(), key.variable(), key.steps(), key.entity().key().parts().get(place), false);
    }
}
