package karzhoul.jpa.query;

import java.util.ArrayList;
import java.util.IdentityHashMap;
import java.util.List;
import java.util.Map;
import karzhoul.jpa.model.Attribute;
import karzhoul.jpa.query.Tree.Aggregate;
import karzhoul.jpa.query.Tree.Condition;
import karzhoul.jpa.query.Tree.Construct;
import karzhoul.jpa.query.Tree.Embedded;
import karzhoul.jpa.query.Tree.Exists;
import karzhoul.jpa.query.Tree.Item;
import karzhoul.jpa.query.Tree.Reference;
import karzhoul.jpa.query.Tree.Select;
import karzhoul.jpa.query.Tree.Value;
import karzhoul.jpa.query.ValueWriter.Written;

/** The columns that a SELECT of the program gives: the greatest parts of the query's values that it can say. */
final class Leaves {
    /** A column of the program's rows. */
    record Column(Text text, Unit unit, Type type) {}

    private final Planner planner;
    private final ValueWriter writer;
    private final boolean areGroups;
    private final Map<Select, RowBlocks.Block> blocks = new IdentityHashMap<>();
    private final List<Column> columns = new ArrayList<>();
    private final Map<Value, Integer> places = new IdentityHashMap<>();
    private final Map<Value, List<Value>> keys = new IdentityHashMap<>();
    private final List<Reference> paths = new ArrayList<>();

    /** Columns over groups that the program makes, or over the rows before there are groups. */
    Leaves(Planner planner, ValueWriter writer, boolean areGroups) {
        this.planner = planner;
        this.writer = writer;
        this.areGroups = areGroups;
    }

    List<Column> columns() {
        return columns;
    }

    /** The column of a value, or null where it has none of its own. */
    Integer place(Value value) {
        return places.get(value);
    }

    /** The column of a value that is no path, which gets one where the program can say it; else null. */
    Integer placeOfWhole(Value value) {
        if (!places.containsKey(value) && !(value instanceof Reference) && !Binding.isConstant(value)) {
            addWhole(value);
        }
        return places.get(value);
    }

    /** The question of a block that is asked for each row. */
    RowBlocks.Block block(Select select) {
        return blocks.get(select);
    }

    /** The parts of an embedded key or object that is asked for as a whole, or null. */
    List<Value> key(Value value) {
        return keys.get(value);
    }

    /**
     * Finds the columns of a value.
     *
     * @throws NotKept where neither the program nor the door computes a part of it
     */
    void add(Value value) {
        if (Binding.isConstant(value) || places.containsKey(value) || keys.containsKey(value)) {
            return;
        }
        if (value instanceof Construct construct) {
            construct.arguments().stream().map(Item::value).forEach(this::add);
        } else if (value instanceof Reference key && key.isWholeKey()) {
            addKey(key);
        } else if (value instanceof Embedded whole) {
            whole.parts().forEach(this::add);
            keys.put(whole, List.copyOf(whole.parts()));
        } else if (!addWhole(value)) {
            addParts(value);
        }
    }

    private void addKey(Reference key) {
        List<Value> parts = new ArrayList<>();
        for (Attribute part : key.entity().key().parts()) {
            Value path = new Reference(key.at(), key.variable(), key.steps(), part, false);
            parts.add(path);
            add(path);
        }
        keys.put(key, parts);
    }

    private boolean addWhole(Value value) {
        boolean isLeaf = value instanceof Reference
                || (!(value instanceof Aggregate) && !Grouping.hasAggregate(value) || areGroups) && !isFixed(value);
        if (!isLeaf) {
            return false;
        }
        try {
            Written written = writer.value(value);
            put(value, new Column(written.text(), written.unit(), Types.of(value)));
            return true;
        } catch (NotKept e) {
            if (value instanceof Reference || value instanceof Aggregate) {
                throw e;
            }
            return false;
        }
    }

    /** Whether no path and no aggregate stands in it. */
    static boolean isFixed(Value value) {
        return !Visiting.has(value, part -> part instanceof Reference || part instanceof Aggregate);
    }

    private void put(Value value, Column column) {
        if (value instanceof Reference path) {
            for (Reference before : paths) {
                if (before.isSame(path)) {
                    places.put(value, places.get(before));
                    return;
                }
            }
            paths.add(path);
        }
        for (int place = 0; place < columns.size(); place++) {
            if (column.text().isSame(columns.get(place).text())) {
                places.put(value, place);
                return;
            }
        }
        places.put(value, columns.size());
        columns.add(column);
    }

    private void addParts(Value value) {
        new Rewriting() {
            @Override
            Value value(Value part) {
                add(part);
                return part;
            }

            @Override
            Condition condition(Condition condition) {
                add(condition);
                return condition;
            }

            @Override
            Select select(Select select) {
                add(select, false);
                return select;
            }
        }.valueWithin(value);
    }

    /** Finds the columns that a block names from outside; it is a question for each row. */
    private void add(Select select, boolean isExists) {
        if (!blocks.containsKey(select)) {
            RowBlocks.Block block = RowBlocks.of(planner, select, isExists);
            blocks.put(select, block);
            block.outside().forEach(this::add);
        }
    }

    /** Finds the columns of a condition that the door decides. */
    void add(Condition condition) {
        new Rewriting() {
            @Override
            Value value(Value part) {
                if (part instanceof Reference path && path.isCollection()) {
                    throw new NotKept(part.at(), "a test of the collection \"" + path + "\" isn't served there; join what it"
                            + " goes along before, and name that variable");
                }
                add(part);
                return part;
            }

            @Override
            Condition condition(Condition part) {
                if (part instanceof Exists exists) {
                    add(exists.select(), true);
                    return part;
                }
                return conditionWithin(part);
            }

            @Override
            Select select(Select select) {
                add(select, false);
                return select;
            }
        }.condition(condition);
    }

    /** A column that is there so that a row has one. */
    void addNothing() {
        columns.add(new Column(Text.of("1"), Unit.INTEGERS, Type.LONG));
    }
}
