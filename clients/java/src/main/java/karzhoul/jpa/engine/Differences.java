package karzhoul.jpa.engine;

import java.util.List;
import java.util.SortedMap;
import java.util.TreeMap;
import karzhoul.jpa.model.StoredDescription;
import karzhoul.jpa.model.Transition;

/** What differs between two descriptions, of a store and of classes. */
final class Differences {
    private static final String TABLE = "the table ";
    private static final String COLUMN = "the column ";
    private static final String OF_TABLE = " of the table ";
    private static final String NEVER_NULL = ", never null";
    /** What a store may get more, since it has no rows of it. */
    private static final List<String> ADDED = List.of(TABLE, "the discriminator ", "the join table ", "the generator ");

    private final SortedMap<String, String> before;
    private final SortedMap<String, String> now;

    Differences(String stored, String present) {
        before = lines(stored);
        now = lines(present);
    }

    private static SortedMap<String, String> lines(String description) {
        SortedMap<String, String> lines = new TreeMap<>();
        for (String line : description.split("\n")) {
            String[] halves = line.split("\t", 2);
            lines.put(halves[0], halves.length == 2 ? halves[1] : "");
        }
        return lines;
    }

    /** Whether the store's description has no line of this name. */
    boolean isNew(String name) {
        return !before.containsKey(name);
    }

    /** Whether the store's rows are good for the classes as they are, but for hidden rows, which the door makes. */
    boolean areTaken() {
        return before.keySet().stream().allMatch(name -> isHidden(name) || isKept(name))
                && now.keySet().stream().allMatch(name -> !isNew(name) || isHidden(name) || isAdded(name));
    }

    private static boolean isHidden(String name) {
        return StoredDescription.HIDDEN.stream().anyMatch(name::startsWith);
    }

    /**
     * Plans how the store gets to the classes, where properties say so.
     *
     * @return whether they say it of all that differs, and isn't taken as it is
     */
    boolean arePlanned(Transition transition) {
        SortedMap<String, String> lost = new TreeMap<>(before);
        lost.keySet().removeIf(name -> isHidden(name) || now.containsKey(name));
        SortedMap<String, String> needed = new TreeMap<>(now);
        needed.keySet().removeIf(name -> !isNew(name) || isHidden(name) || isAdded(name));
        return before.keySet().stream().allMatch(name -> isHidden(name) || lost.containsKey(name) || isKept(name))
                && transition.plan(lost, needed);
    }

    /** Whether it means what it meant, or may be null now. */
    private boolean isKept(String name) {
        String meaning = now.get(name);
        return meaning != null && (meaning.equals(before.get(name))
                || name.startsWith(COLUMN) && meaning.equals(before.get(name).replace(NEVER_NULL, "")));
    }

    /** Whether a store may have it from now on: a column of rows that are there may be null. */
    private boolean isAdded(String name) {
        if (!name.startsWith(COLUMN)) {
            return ADDED.stream().anyMatch(name::startsWith);
        }
        String table = name.substring(name.lastIndexOf(OF_TABLE) + OF_TABLE.length());
        return isNew(TABLE + table) || isOfNewClass(name, table) || !now.get(name).contains(NEVER_NULL);
    }

    /** Whether it is of a class below the top that has no rows yet: its columns begin with its name. */
    private boolean isOfNewClass(String name, String table) {
        int end = name.indexOf('.');
        String discriminator = "the discriminator " + name.substring(COLUMN.length(), Math.max(end, COLUMN.length()))
                + OF_TABLE + table;
        return end > 0 && now.containsKey(discriminator) && isNew(discriminator);
    }

    /** A line for each. */
    String words() {
        StringBuilder words = new StringBuilder();
        before.forEach((name, meaning) -> {
            String other = now.get(name);
            if (other == null) {
                words.append("\n- the store has ").append(name).append(", and the classes don't");
            } else if (!other.equals(meaning)) {
                words.append("\n- ").append(name).append(" is ").append(meaning).append(" in the store, and ")
                        .append(other)
                        .append(" by the classes");
            }
        });
        now.keySet().stream().filter(this::isNew)
                .forEach(name -> words.append("\n- the classes have ").append(name).append(", and the store doesn't"));
        return words.toString();
    }
}
