package karzhoul.jpa.query;

import jakarta.persistence.PersistenceException;
import java.util.ArrayList;
import java.util.Arrays;
import java.util.Collections;
import java.util.HashSet;
import java.util.IdentityHashMap;
import java.util.LinkedHashMap;
import java.util.List;
import java.util.Map;
import java.util.Set;
import karzhoul.jpa.model.Relation;
import karzhoul.jpa.query.Evaluator.Frame;
import karzhoul.jpa.query.Tree.Condition;
import karzhoul.jpa.query.Tree.Construct;
import karzhoul.jpa.query.Tree.Item;
import karzhoul.jpa.query.Tree.Value;

/**
 * How a SELECT is answered: the program's text, and what the door does with its rows behind it, in this order: it
 * leaves rows out, groups them, leaves groups out, computes the items, keeps the first of equal rows, sorts and cuts.
 *
 * @param text the program's text
 * @param leaves its columns
 * @param items the query's items
 * @param filters what of WHERE the door decides
 * @param groups by what the door groups; null where it doesn't
 * @param having what it decides of groups; may be null
 * @param isDistinct whether it keeps the first of equal rows
 * @param order by what it sorts; empty where it doesn't
 * @param asked the blocks that are asked before, by their numbers
 * @param fetches what is read of the results' instances
 * @param isOne whether it has one row at most
 * @param byKey what it asks where that is one entity by its key; else null
 * @param instead the plan for parameters that the program has no equal of
 */
record SelectPlan(Text text, Leaves leaves, List<Item> items, List<Condition> filters, List<Value> groups,
        Condition having, boolean isDistinct, List<Sorted> order, List<SelectPlan> asked,
        List<Fetches.Fetch> fetches, boolean isOne, OneByKey byKey, Inexact.Instead<SelectPlan> instead) implements Plan {
    /** A key by which the door sorts. */
    record Sorted(Value value, boolean isDescending) {}

    /** A row with what it is sorted by. */
    private record Row(Object[] items, List<Object> key, List<Object> order, Frame frame) {}

    /** The first item of a row, and what the program has of it where it is a column. */
    record Answer(Object value, Object column) {}

    /** Whether one object is found at most, or the caller looks at the first ones alone. */
    private boolean findsOne(Integer max) {
        return (isOne || max != null && max <= 2) && columns() == 1;
    }

    /** How many columns are objects. */
    private long columns() {
        return leaves.columns().stream().filter(column -> column.unit() instanceof Unit.Thing).count();
    }

    /** Whether the program cuts. */
    boolean isCutByProgram() {
        return filters.isEmpty() && groups == null && having == null && !isDistinct && order.isEmpty();
    }

    /** The rows: a value for each item, an object of NEW for each argument of it in its place. */
    List<Object[]> rows(Binding binding, Integer first, Integer max) {
        try {
            return asPlanned(binding, first, max);
        } catch (Inexact e) {
            return instead.of(e).rows(binding, first, max);
        }
    }

    private List<Object[]> asPlanned(Binding binding, Integer first, Integer max) {
        answerBlocks(binding);
        if (!areItemsColumns()) {
            return instances(binding, computed(binding, first, max).stream().map(Row::items).toList());
        }
        List<Object[]> rows = found(binding, first, max);
        for (Object[] row : rows) {
            for (int place = 0; place < row.length; place++) {
                row[place] = Evaluator.decoded(leaves.columns().get(place), row[place]);
            }
        }
        return instances(binding, rows);
    }

    /** Whether a row of the program is one of the query's: nothing is left out of it, put together or computed. */
    private boolean areItemsColumns() {
        boolean isSame = isCutByProgram() && leaves.columns().size() == items.size();
        for (int place = 0; isSame && place < items.size(); place++) {
            Integer column = leaves.place(items.get(place).value());
            isSame = column != null && column == place;
        }
        return isSame;
    }

    private void answerBlocks(Binding binding) {
        for (int number = 0; number < asked.size(); number++) {
            binding.answer(number, asked.get(number).single(binding));
        }
    }

    /** What a block of one item answers; objects stay as the program names them. */
    List<Answer> answers(Binding binding, Integer max) {
        try {
            return answered(binding, max);
        } catch (Inexact e) {
            return instead.of(e).answers(binding, max);
        }
    }

    private List<Answer> answered(Binding binding, Integer max) {
        Value item = items.get(0).value();
        Integer place = leaves.place(item);
        List<Answer> answers = new ArrayList<>();
        answerBlocks(binding);
        for (Row row : computed(binding, null, max)) {
            boolean isColumn = place != null && row.frame().row() != null;
            answers.add(new Answer(row.items()[0], isColumn ? row.frame().row()[place] : null));
        }
        return answers;
    }

    /** The unit of the first item, where it is a column; else null. */
    Unit unit() {
        Integer place = leaves.place(items.get(0).value());
        return place == null ? null : leaves.columns().get(place).unit();
    }

    private List<Row> computed(Binding binding, Integer first, Integer max) {
        boolean isCut = isCutByProgram();
        List<Object[]> found = found(binding, isCut ? first : null, isCut ? max : null);
        Evaluator evaluator = new Evaluator(leaves, binding);
        List<Row> rows = new ArrayList<>();
        for (Frame frame : frames(evaluator, found)) {
            rows.add(row(evaluator, frame));
        }
        rows = isDistinct ? distinct(rows) : rows;
        if (!order.isEmpty()) {
            rows.sort(this::compare);
        }
        return isCut ? rows : cut(rows, first, max);
    }

    /** The program's rows. */
    private List<Object[]> found(Binding binding, Integer first, Integer max) {
        List<Object[]> one = byKey == null || first != null || max != null && max == 0 ? null : byKey.rows(binding);
        if (one != null) {
            return one;
        }
        binding.clear();
        String written = text.written(binding);
        binding.checkLength(written);
        binding.deadline.check();
        return binding.asking.rows(written, binding.parameters(), first, max, isCutByProgram() && findsOne(max));
    }

    /** The one value of a block of its own; null of no row. */
    Object single(Binding binding) {
        Binding own = new Binding(binding);
        List<Object[]> rows = rows(own, null, 2);
        if (rows.size() > 1) {
            throw several();
        }
        return rows.isEmpty() ? null : rows.get(0)[0];
    }

    static PersistenceException several() {
        return new PersistenceException("a subquery that is taken as one value has several rows");
    }

    private List<Frame> frames(Evaluator evaluator, List<Object[]> found) {
        List<Frame> frames = new ArrayList<>(found.size());
        for (Object[] row : found) {
            Frame frame = new Frame(row, List.of());
            if (filters.isEmpty() || isKept(evaluator, frame)) {
                frames.add(frame);
            }
        }
        if (groups != null) {
            frames = grouped(evaluator, frames);
        }
        if (having != null) {
            frames.removeIf(frame -> !evaluator.isTrue(having, frame));
        }
        return frames;
    }

    private boolean isKept(Evaluator evaluator, Frame frame) {
        for (Condition filter : filters) {
            if (!evaluator.isTrue(filter, frame)) {
                return false;
            }
        }
        return true;
    }

    /** Groups in the order of their first rows; without GROUP BY one, also of nothing. */
    private List<Frame> grouped(Evaluator evaluator, List<Frame> frames) {
        Map<List<Object>, List<Object[]>> byKey = new LinkedHashMap<>();
        if (groups.isEmpty()) {
            byKey.put(List.of(), new ArrayList<>());
        }
        for (Frame frame : frames) {
            List<Object> key = new ArrayList<>();
            groups.forEach(group -> key.add(evaluator.key(group, null, frame)));
            byKey.computeIfAbsent(key, k -> new ArrayList<>()).add(frame.row());
        }
        List<Frame> grouped = new ArrayList<>();
        byKey.values().forEach(group -> grouped.add(new Frame(group.isEmpty() ? null : group.get(0), group)));
        return grouped;
    }

    private Row row(Evaluator evaluator, Frame frame) {
        Object[] values = new Object[items.size()];
        List<Object> key = isDistinct ? new ArrayList<>() : List.of();
        for (int place = 0; place < values.length; place++) {
            Value value = items.get(place).value();
            if (value instanceof Construct construct) {
                Object[] arguments = new Object[construct.arguments().size()];
                for (int argument = 0; argument < arguments.length; argument++) {
                    arguments[argument] = evaluator.value(construct.arguments().get(argument).value(), frame);
                }
                values[place] = arguments;
                if (isDistinct) {
                    key.add(Arrays.asList(arguments));
                }
            } else {
                values[place] = evaluator.value(value, frame);
                if (isDistinct) {
                    key.add(evaluator.key(value, values[place], frame));
                }
            }
        }
        return new Row(values, key, order.isEmpty() ? List.of() : orderOf(evaluator, frame), frame);
    }

    private List<Object> orderOf(Evaluator evaluator, Frame frame) {
        List<Object> keys = new ArrayList<>();
        order.forEach(sorted -> keys.add(evaluator.order(sorted.value(), frame)));
        return keys;
    }

    private static List<Row> distinct(List<Row> rows) {
        Set<Object> seen = new HashSet<>();
        List<Row> kept = new ArrayList<>();
        for (Row row : rows) {
            if (seen.add(row.key())) {
                kept.add(row);
            }
        }
        return kept;
    }

    private int compare(Row a, Row b) {
        for (int place = 0; place < order.size(); place++) {
            int found = Comparing.compareNulls(a.order().get(place), b.order().get(place));
            if (found != 0) {
                return order.get(place).isDescending() ? -found : found;
            }
        }
        return 0;
    }

    private static List<Row> cut(List<Row> rows, Integer first, Integer max) {
        int from = Math.min(first == null ? 0 : first, rows.size());
        int to = max == null ? rows.size() : (int) Math.min((long) from + max, rows.size());
        return rows.subList(from, to);
    }

    /** The rows with instances in the place of objects, all of them filled in one trip. */
    private List<Object[]> instances(Binding binding, List<Object[]> rows) {
        if (columns() > 0) {
            List<Asking.Ref> refs = new ArrayList<>();
            for (Object[] row : rows) {
                collect(row, refs);
            }
            List<Object> instances = refs.isEmpty() ? List.of() : binding.asking.instances(refs);
            int[] next = {0};
            for (Object[] row : rows) {
                replace(row, instances, next);
            }
        }
        fetch(binding.asking, rows);
        return rows;
    }

    private static void collect(Object[] values, List<Asking.Ref> refs) {
        for (Object value : values) {
            if (value instanceof Asking.Ref ref) {
                refs.add(ref);
            } else if (value instanceof Object[] arguments && arguments.getClass() == Object[].class) {
                collect(arguments, refs);
            }
        }
    }

    private static void replace(Object[] values, List<Object> instances, int[] next) {
        for (int place = 0; place < values.length; place++) {
            if (values[place] instanceof Asking.Ref) {
                values[place] = instances.get(next[0]++);
            } else if (values[place] instanceof Object[] arguments && arguments.getClass() == Object[].class) {
                replace(arguments, instances, next);
            }
        }
    }

    // ---- JOIN FETCH

    /** Reads what fetch joins name of rows whose entities are there. */
    void fetch(Asking asking, List<Object[]> rows) {
        Map<Tree.Variable, List<Object>> known = new IdentityHashMap<>();
        for (Fetches.Fetch fetch : fetches) {
            List<Object> owners = known.computeIfAbsent(fetch.owner(), owner -> owners(owner, rows));
            for (Relation relation : fetch.relations()) {
                owners = asking.fetch(owners, relation);
            }
            Class<?> target = fetch.target().entity.javaClass();
            known.put(fetch.target(), owners.stream().filter(target::isInstance).toList());
        }
    }

    private List<Object> owners(Tree.Variable variable, List<Object[]> rows) {
        Set<Object> owners = Collections.newSetFromMap(new IdentityHashMap<>());
        List<Object> inOrder = new ArrayList<>();
        for (int place = 0; place < items.size(); place++) {
            if (Fetches.isVariable(items.get(place).value(), variable)) {
                for (Object[] row : rows) {
                    if (row[place] != null && owners.add(row[place])) {
                        inOrder.add(row[place]);
                    }
                }
            }
        }
        return inOrder;
    }
}
