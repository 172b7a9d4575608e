package karzhoul.jpa.query;

import jakarta.persistence.PersistenceException;
import java.util.ArrayList;
import java.util.List;
import java.util.function.Function;
import karzhoul.jpa.model.Attribute;

/**
 * How an UPDATE or a DELETE is done: by the program's text, or where the program can't say its WHERE, by the keys of
 * those for which that is true.
 *
 * @param whole the program's texts, or null where it can't say WHERE
 * @param byKeys how it is done by keys, or null where the program can say WHERE
 * @param instead the same where it can, but not of these parameters
 * @param asked the blocks that are asked before, by their numbers
 */
record ChangePlan(Texts whole, ByKeys byKeys, Inexact.Instead<ByKeys> instead, List<SelectPlan> asked) implements Plan {
    private static final int MOST_WHOLE_KEYS = 50;

    /**
     * The program's texts, for those of one WHERE.
     *
     * @param text what changes them
     * @param check a SELECT that counts objects whose new values are beyond their type or their columns, or null
     * @param beyond what these would get
     * @param rows those of collections of values, which go with what is deleted
     * @param orders those of lists of entities, which go likewise
     * @param uniques the unique values that it moves
     */
    record Texts(Text text, Text check, String beyond, List<RowsGone> rows, List<OrdersGone> orders, List<UniquesMoved> uniques) {
        private void check(Binding binding) {
            if (check == null) {
                return;
            }
            binding.clear();
            String counting = check.written(binding);
            Object count = binding.asking.rows(counting, binding.parameters(), null, null, false).get(0)[0];
            if (!count.equals(0L)) {
                throw new PersistenceException("Overflow: SET gives " + count + " objects " + beyond);
            }
        }

        private int done(Binding binding) {
            List<List<Object>> gone = new ArrayList<>();
            List<UniquesMoved.Before> before = new ArrayList<>();
            uniques.forEach(each -> before.add(each.before(binding)));
            for (RowsGone each : rows) {
                gone.add(each.found(binding));
                before.addAll(UniquesMoved.of(each.entity(), binding, gone.get(gone.size() - 1)));
            }
            List<List<String>> owners = orders.stream().map(each -> each.owners(binding)).toList();
            binding.clear();
            String written = text.written(binding);
            binding.checkLength(written);
            int done = binding.asking.update(written, binding.parameters());
            for (int i = 0; i < gone.size(); i++) {
                rows.get(i).delete(binding, gone.get(i));
            }
            for (int i = 0; i < owners.size(); i++) {
                binding.asking.ordersGone(orders.get(i).order(), owners.get(i));
            }
            if (!before.isEmpty()) {
                binding.asking.moved(before.stream().flatMap(each -> each.after(binding).stream()).toList());
            }
            return done;
        }
    }

    /**
     * A change by keys, some of them at a time.
     *
     * @param select a SELECT of the keys of what WHERE is true for
     * @param parts the key's attributes
     * @param paths what the program calls them
     * @param of the texts of a WHERE
     */
    record ByKeys(SelectPlan select, List<Attribute> parts, List<String> paths, Function<Text, Texts> of) {
        private List<Texts> found(Binding binding) {
            List<Object[]> keys = select.rows(new Binding(binding), null, null);
            int most = parts.size() == 1 ? Grammar.PROGRAM.list() : MOST_WHOLE_KEYS;
            List<Texts> all = new ArrayList<>();
            for (int from = 0; from < keys.size(); from += most) {
                all.add(of.apply(where(keys.subList(from, Math.min(keys.size(), from + most)))));
            }
            return all;
        }

        private Text where(List<Object[]> keys) {
            if (parts.size() == 1) {
                List<Object> columns = keys.stream().map(key -> column(key, 0)).toList();
                return Text.of(" WHERE ").add((binding, out) ->
                        out.append(ConditionWriter.among(binding, paths.get(0), false, columns)));
            }
            List<Text> each = new ArrayList<>();
            for (Object[] key : keys) {
                List<Text> equal = new ArrayList<>();
                for (int i = 0; i < key.length; i++) {
                    equal.add(Text.of(paths.get(i) + " = ").add(part(key, i)));
                }
                each.add(Text.of("(").add(Text.joined(" AND ", equal)).add(")"));
            }
            return Text.of(" WHERE (").add(Text.joined(" OR ", each)).add(")");
        }

        private Text part(Object[] key, int place) {
            Object column = column(key, place);
            return new Text().add((binding, out) -> out.append(binding.parameter(column)));
        }

        private Object column(Object[] key, int place) {
            return parts.get(place).codec().toColumn(key[place]);
        }
    }

    /** Does it, and tells how many objects it concerned. */
    int done(Binding binding) {
        binding.deadline.check();
        for (int number = 0; number < asked.size(); number++) {
            binding.answer(number, asked.get(number).single(binding));
        }
        if (byKeys != null) {
            return done(byKeys.found(binding), binding);
        }
        try {
            return done(List.of(whole), binding);
        } catch (Inexact e) {
            return done(instead.of(e).found(binding), binding);
        }
    }

    private static int done(List<Texts> all, Binding binding) {
        all.forEach(each -> each.check(binding));
        return all.stream().mapToInt(each -> each.done(binding)).sum();
    }
}
