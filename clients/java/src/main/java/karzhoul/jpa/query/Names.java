package karzhoul.jpa.query;

import java.util.HashSet;
import java.util.IdentityHashMap;
import java.util.Locale;
import java.util.Map;
import java.util.Set;
import karzhoul.jpa.query.Tree.Variable;

/** The names of variables in the program's text: those of the query where they can stand there, each once. */
final class Names {
    private static final int LONGEST = 24;

    private final Map<Variable, String> given = new IdentityHashMap<>();
    private final Set<String> taken = new HashSet<>(Grammar.PROGRAM.keywords());

    String of(Variable variable) {
        return given.computeIfAbsent(variable, v -> fresh(v.name));
    }

    int count() {
        return given.size();
    }

    private String fresh(String wanted) {
        // c0, c1 .. are the names of columns
        boolean isPlain = wanted.length() <= LONGEST && wanted.matches("[A-Za-z][A-Za-z0-9_]*")
                && !wanted.matches("[cC][0-9]+");
        String base = isPlain ? wanted : "v";
        String name = base;
        int number = 1;
        while (!taken.add(name.toLowerCase(Locale.ROOT))) {
            name = base + "_" + ++number;
        }
        return name;
    }
}
