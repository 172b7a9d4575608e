package karzhoul.jpa.query;

import java.util.ArrayList;
import java.util.HashMap;
import java.util.List;
import java.util.Locale;
import java.util.Map;
import karzhoul.jpa.query.Tree.Variable;

/** The variables that may be named in a block: its own, and those of the blocks around it (chapter 4.4.2). */
final class Scope {
    final Scope outer;
    private final Map<String, Variable> own = new HashMap<>();

    Scope(Scope outer) {
        this.outer = outer;
    }

    /** The variable of a name in any case, or null. */
    Variable find(String name) {
        String key = name.toLowerCase(Locale.ROOT);
        for (Scope scope = this; scope != null; scope = scope.outer) {
            Variable found = scope.own.get(key);
            if (found != null) {
                return found;
            }
        }
        return null;
    }

    /** Whether the block itself has it. */
    boolean isOwn(Variable variable) {
        return own.containsValue(variable);
    }

    /** Whether the block had none of this name. */
    boolean add(Variable variable) {
        return own.putIfAbsent(variable.name.toLowerCase(Locale.ROOT), variable) == null;
    }

    /** The names of all. */
    List<String> names() {
        List<String> names = new ArrayList<>();
        for (Scope scope = this; scope != null; scope = scope.outer) {
            scope.own.values().forEach(variable -> names.add(variable.name));
        }
        return names;
    }
}
