package karzhoul.jpa.query;

import jakarta.persistence.Parameter;
import jakarta.persistence.TupleElement;
import java.util.List;
import java.util.Map;

/**
 * A statement that was built as a tree, as criteria queries are (chapter 6).
 *
 * @param text what it is in words, for faults; the places in the tree are of it
 * @param tree as the parser would make it: names aren't resolved
 * @param parameters the parameters with their keys in the tree, in the order of the text
 * @param values what stands in it as parameters whose values are known
 * @param result what becomes of its rows; null where it has none
 */
public record Built(String text, Tree.Statement tree, Map<Parameter<?>, Object> parameters, Map<Object, Object> values,
        Result result) {
    /**
     * The key of a parameter that has no name.
     *
     * @param number its place among these
     * @param isValue whether its value is known
     */
    public record Key(int number, boolean isValue) {
        @Override
        public String toString() {
            return (isValue ? "value" : "parameter") + number;
        }
    }

    /**
     * What becomes of rows.
     *
     * @param type the class of the results
     * @param isCompound whether a row is a tuple or an array whatever the number of its items
     * @param elements the items as they were selected
     */
    public record Result(Class<?> type, boolean isCompound, List<TupleElement<?>> elements) {}
}
