package karzhoul.jpa.query;

import java.util.ArrayList;
import java.util.IdentityHashMap;
import java.util.List;
import java.util.Map;
import java.util.function.Consumer;
import karzhoul.jpa.query.Tree.And;
import karzhoul.jpa.query.Tree.Compare;
import karzhoul.jpa.query.Tree.Condition;
import karzhoul.jpa.query.Tree.Downcast;
import karzhoul.jpa.query.Tree.Key;
import karzhoul.jpa.query.Tree.Range;
import karzhoul.jpa.query.Tree.Reference;
import karzhoul.jpa.query.Tree.Select;
import karzhoul.jpa.query.Tree.Source;
import karzhoul.jpa.query.Tree.Value;
import karzhoul.jpa.query.Tree.Variable;

/** Puts the paths of variables over the classes below in the places of downcasts, each the same object as what is cast. */
final class TreatedRanges extends Rewriting {
    /** The ranges of these variables. */
    final List<Source> sources = new ArrayList<>();
    /** That they are the same objects. */
    final List<Condition> same = new ArrayList<>();
    private final Map<Variable, Variable> copies = new IdentityHashMap<>();
    private final Consumer<Reference> seen;

    /** Over something whose paths, also those that are cast, are told. */
    TreatedRanges(Consumer<Reference> seen) {
        this.seen = seen;
    }

    /**
     * A block without downcasts but in WHERE and FROM: what is of another class doesn't further participate in it, as
     * behind a join (chapter 4.4.9).
     */
    static Select inClauses(Select select) {
        TreatedRanges ranges = new TreatedRanges(path -> { });
        Select changed = new Select(select.at(), select.isDistinct(), each(select.items(), ranges::item), select.sources(),
                select.where(), ranges.values(select.groups()), ranges.conditionOrNull(select.having()),
                each(select.order(), key -> new Key(ranges.value(key.value()), key.isDescending())));
        if (ranges.sources.isEmpty()) {
            return select;
        }
        List<Source> sources = new ArrayList<>(select.sources());
        sources.addAll(ranges.sources);
        List<Condition> all = new ArrayList<>(Planner.conjuncts(select.where()));
        all.addAll(ranges.same);
        return new Select(changed.at(), changed.isDistinct(), changed.items(), sources,
                all.size() == 1 ? all.get(0) : new And(all.get(0).at(), all), changed.groups(), changed.having(),
                changed.order());
    }

    @Override
    Value value(Value value) {
        if (value instanceof Downcast of) {
            Variable below = copies.computeIfAbsent(of.path().variable(), it -> range(of));
            return new Reference(of.path().at(), below, of.path().steps(), of.path().attribute(), of.path().isWholeKey());
        } else if (value instanceof Reference path) {
            seen.accept(path);
        }
        return valueWithin(value);
    }

    private Variable range(Downcast of) {
        Variable below = new Variable(of.path().variable().name, of.path().variable().entity);
        sources.add(new Range(of.at(), below.entity.name(), below.name, below));
        same.add(new Compare(of.at(), "=", new Reference(of.at(), below, List.of(), null, false), of.of()));
        seen.accept(of.of());
        return below;
    }

    @Override
    Select select(Select select) {
        return select;
    }
}
