package karzhoul.jpa.query;

import java.util.List;
import karzhoul.jpa.model.UnitModel;
import karzhoul.jpa.query.Tree.Derived;
import karzhoul.jpa.query.Tree.Join;
import karzhoul.jpa.query.Tree.Range;
import karzhoul.jpa.query.Tree.Reference;
import karzhoul.jpa.query.Tree.Select;
import karzhoul.jpa.query.Tree.Source;
import karzhoul.jpa.query.Tree.Value;

/** Writes FROM, and the blocks that stand in EXISTS. */
final class BlockWriter {
    final Names names = new Names();
    final ValueWriter values;
    final ConditionWriter conditions;

    /** One that writes parameters among decimals, or leaves them to the door. */
    BlockWriter(UnitModel unit, boolean isExact) {
        this.values = new ValueWriter(names, isExact);
        this.conditions = new ConditionWriter(unit, values, this);
        values.writesBy(new CaseWriter(values, conditions));
    }

    /** FROM with its joins. */
    Text from(List<Source> sources) {
        Text text = new Text();
        for (int place = 0; place < sources.size(); place++) {
            Source source = sources.get(place);
            String name = names.of(source.variable());
            if (source instanceof Range range) {
                text.add(place == 0 ? "" : ", ").add(range.variable().entity.mappedName() + " " + name);
            } else if (source instanceof Derived derived) {
                text.add(place == 0 ? "" : ", ").add(values.path((Reference) derived.path()) + " " + name);
            } else {
                Join join = (Join) source;
                text.add(join.isLeft() ? " LEFT JOIN " : " JOIN ").add(values.path((Reference) join.path()) + " "
                        + name);
                if (join.on() != null) {
                    text.add(" ON ").add(conditions.condition(join.on()));
                }
            }
        }
        return text;
    }

    /** A block; what its item is says nothing but which paths must lead somewhere. */
    Text block(Select select) {
        Text from = from(select.sources());
        Text text = Text.of("SELECT ").add(item(select)).add(" FROM ").add(from);
        if (select.where() != null) {
            text.add(" WHERE ").add(conditions.condition(select.where()));
        }
        return text;
    }

    private Text item(Select select) {
        Value item = select.items().get(0).value();
        boolean dropsNothing = !Visiting.has(item, value -> value instanceof Reference path && path.canDrop());
        if (dropsNothing) {
            return Text.of(names.of(select.sources().get(0).variable()));
        }
        return values.value(item).text();
    }
}
