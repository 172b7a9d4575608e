package karzhoul.jpa.query;

import java.util.List;
import karzhoul.jpa.query.Tree.Call;
import karzhoul.jpa.query.Tree.Case;
import karzhoul.jpa.query.Tree.Compare;
import karzhoul.jpa.query.Tree.Condition;
import karzhoul.jpa.query.Tree.IsEmpty;
import karzhoul.jpa.query.Tree.Literal;
import karzhoul.jpa.query.Tree.Member;
import karzhoul.jpa.query.Tree.Reference;
import karzhoul.jpa.query.Tree.Select;
import karzhoul.jpa.query.Tree.Value;

/**
 * Makes of tests of collections behind WHEN what a CASE can have: of IS EMPTY a comparison of SIZE with 0, which the
 * program computes, and of MEMBER OF an EXISTS, which the door asks.
 */
final class CaseTests extends Rewriting {
    private final boolean asksBlocks;
    private int depth;

    /** @param asksBlocks whether the door may ask a block for each row, as in a SELECT */
    CaseTests(boolean asksBlocks) {
        this.asksBlocks = asksBlocks;
    }

    @Override
    Value value(Value value) {
        int within = value instanceof Case ? 1 : 0;
        depth += within;
        Value made = valueWithin(value);
        depth -= within;
        return made;
    }

    @Override
    Condition condition(Condition condition) {
        if (depth > 0 && condition instanceof IsEmpty of) {
            return new Compare(of.at(), of.isNot() ? "<>" : "=", new Call(of.at(), Function.SIZE, List.of(of.path())),
                    new Literal(of.at(), 0));
        } else if (depth > 0 && asksBlocks && condition instanceof Member of && of.path() instanceof Reference path
                && path.steps().size() == 1) {      // behind a null link there is no row, which EXISTS can't say
            return RowBlocks.ofCollections(condition);
        }
        return conditionWithin(condition);
    }

    @Override
    Select select(Select select) {
        int outside = depth;
        depth = 0;
        Select made = selectWithin(select);
        depth = outside;
        return made;
    }
}
