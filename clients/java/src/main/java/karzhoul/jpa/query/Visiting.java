package karzhoul.jpa.query;

import java.util.function.Predicate;
import karzhoul.jpa.query.Tree.Condition;
import karzhoul.jpa.query.Tree.Select;
import karzhoul.jpa.query.Tree.Value;

/** Looks for values in a tree. */
final class Visiting {
    private Visiting() {}

    /** Whether a value or one of its parts, those of blocks too, is such. */
    static boolean has(Value value, Predicate<Value> test) {
        Search search = new Search(test);
        search.value(value);
        return search.isFound;
    }

    /** Whether some value in the condition is such. */
    static boolean has(Condition condition, Predicate<Value> test) {
        Search search = new Search(test);
        search.conditionOrNull(condition);
        return search.isFound;
    }

    /** Whether some value in the block is such. */
    static boolean has(Select select, Predicate<Value> test) {
        Search search = new Search(test);
        search.select(select);
        return search.isFound;
    }

    /** Whether a block stands in the condition. */
    static boolean hasBlock(Condition condition) {
        boolean[] isFound = {false};
        new Rewriting() {
            @Override
            Select select(Select select) {
                isFound[0] = true;
                return select;
            }
        }.condition(condition);
        return isFound[0];
    }

    private static final class Search extends Rewriting {
        private final Predicate<Value> test;
        private boolean isFound;

        Search(Predicate<Value> test) {
            this.test = test;
        }

        @Override
        Value value(Value value) {
            isFound |= test.test(value);
            return isFound ? value : valueWithin(value);
        }
    }
}
