package karzhoul.jpa.query;

import java.util.ArrayList;
import java.util.List;
import karzhoul.jpa.model.Attribute;
import karzhoul.jpa.model.EntityModel;
import karzhoul.jpa.query.Tree.Compare;
import karzhoul.jpa.query.Tree.Condition;
import karzhoul.jpa.query.Tree.Range;
import karzhoul.jpa.query.Tree.Reference;
import karzhoul.jpa.query.Tree.Select;
import karzhoul.jpa.query.Tree.Value;

/**
 * What a SELECT asks that has one entity as its item, and its whole key in WHERE alone: the program finds the object without
 * reading a text.
 *
 * @param entity the root of its hierarchy
 * @param parts what the parts of the key are equal to
 * @param units as what the program has these
 */
record OneByKey(EntityModel entity, List<Value> parts, List<Unit> units) {
    /** That of a SELECT, or null where it asks something else. */
    static OneByKey of(Select select) {
        boolean isPlain = select.sources().size() == 1 && select.sources().get(0) instanceof Range && select.items().size() == 1
                && select.groups().isEmpty() && select.having() == null && select.order().isEmpty();
        if (!isPlain || !Fetches.isVariable(select.items().get(0).value(), select.sources().get(0).variable())) {
            return null;
        }
        EntityModel entity = select.sources().get(0).variable().entity;
        List<Condition> tests = Planner.conjuncts(select.where());
        List<Value> parts = new ArrayList<>();
        for (Attribute part : entity.key().parts()) {
            tests.stream().map(test -> equalTo(test, part)).filter(value -> value != null).forEach(parts::add);
        }
        boolean isWhole = parts.size() == entity.key().parts().size() && tests.size() == parts.size();
        List<Unit> units = entity.key().parts().stream().map(part -> Unit.of(part.codec())).toList();
        return isWhole && entity.root() == entity ? new OneByKey(entity, parts, units) : null;
    }

    private static Value equalTo(Condition test, Attribute part) {
        if (!(test instanceof Compare compare) || !compare.sign().equals("=")) {
            return null;
        }
        return isPart(compare.left(), part) && Binding.isConstant(compare.right()) ? compare.right()
                : isPart(compare.right(), part) && Binding.isConstant(compare.left()) ? compare.left() : null;
    }

    private static boolean isPart(Value value, Attribute part) {
        return value instanceof Reference path && path.steps().isEmpty() && path.attribute() == part;
    }

    /** The rows; null where the program has to be asked by the text, since the key is null, of no such type, or known. */
    List<Object[]> rows(Binding binding) {
        List<Object> columns = new ArrayList<>(parts.size());
        for (int place = 0; place < parts.size(); place++) {
            Value part = parts.get(place);
            Object value = binding.constant(part);
            Object column = value == null ? null
                    : ConditionWriter.column(binding, part, value, units.get(place));
            if (column == null) {
                return null;
            }
            columns.add(column);
        }
        binding.deadline.check();
        return binding.asking.unknown(entity, columns);
    }
}
