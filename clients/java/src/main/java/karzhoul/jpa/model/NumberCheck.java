package karzhoul.jpa.model;

import java.util.HashMap;
import java.util.List;
import java.util.Map;

/** Checks what the mapping asks: numbers and discriminators that are distinct, and no more than there may be. */
final class NumberCheck {
    /** The program has 64; one of them is the description of the store. */
    private static final int MOST_ENTITIES = 63;
    private static final int MOST_MEMBERS = 64;

    /** A table or a column that has a number already. */
    private record Taken(String name, String place) {}

    private final Faults faults;

    NumberCheck(Faults faults) {
        this.faults = faults;
    }

    void check(List<PlainEntity> all) {
        Map<Integer, Taken> tables = new HashMap<>();
        Map<PlainEntity, Map<Integer, Taken>> columns = new HashMap<>();
        Map<PlainEntity, Map<String, PlainEntity>> discriminators = new HashMap<>();
        Map<String, PlainEntity> names = new HashMap<>();
        for (PlainEntity entity : all) {
            if (entity.above() == null) {
                take(tables, "table", entity.table(), entity, "");
            }
            checkColumns(entity, columns.computeIfAbsent(entity.root(), none -> new HashMap<>()));
            checkJoinTables(entity, tables);
            PlainEntity same = discriminators.computeIfAbsent(entity.root(), none -> new HashMap<>())
                    .putIfAbsent(entity.discriminator(), entity);
            if (same != null) {
                faults.add(entity.javaClass(), "its discriminator is " + entity.discriminator() + ", as that of "
                        + same.javaClass().getName(), "Give it another @DiscriminatorValue");
            }
            PlainEntity named = names.putIfAbsent(entity.name(), entity);
            if (named != null) {
                faults.add(entity.javaClass(), "its name is " + entity.name() + ", as that of " + named.javaClass()
                        .getName(),
                        "Give it another one, by @Entity(name = ..)");
            }
            checkCount(entity);
        }
        if (all.size() > MOST_ENTITIES) {
            PlainEntity last = all.get(MOST_ENTITIES);
            boolean hasRows = all.stream().anyMatch(NumberCheck::isRows);
            boolean hasUnique = all.stream().anyMatch(entity -> entity.javaClass() == Unique.class);
            faults.add(last.declaredAt(), "it is one of " + all.size() + " entities"
                    + (hasRows ? " and collections of values" : "") + (hasUnique ? " and unique columns" : "")
                    + ", and a unit has at most " + MOST_ENTITIES,
                    "Divide the unit");
        }
    }

    private void checkColumns(PlainEntity entity, Map<Integer, Taken> columns) {
        if (entity.above() == null && entity.version().isPresent()) {
            PlainAttribute version = (PlainAttribute) entity.version().get();
            take(columns, "column", version.columnName(), entity, version.path());
        }
        for (PlainAttribute attribute : entity.ownAttributes()) {
            take(columns, "column", attribute.columnName(), entity, attribute.path());
        }
        for (PlainRelation relation : entity.ownRelations()) {
            if (relation.isOwner() && !relation.isMany()) {
                take(columns, "column", relation.storedName(), entity, relation.path());
            }
        }
    }

    private void checkJoinTables(PlainEntity entity, Map<Integer, Taken> tables) {
        for (PlainRelation relation : entity.ownRelations()) {
            if (relation.isOwner() && relation.isMany()) {
                take(tables, "table", relation.storedName(), entity, relation.path());
            }
        }
    }

    private void take(Map<Integer, Taken> taken, String sort, String name, PlainEntity entity, String path) {
        String place = entity.declaredAt() + (path.isEmpty() || isRows(entity) ? "" : "." + path);
        int number = Names.number(name);
        Taken other = taken.putIfAbsent(number, new Taken(name, place));
        if (other == null) {
            return;
        }
        String what = other.name().equalsIgnoreCase(name) ? other.place() + " has the " + sort + " " + name + " too"
                : "the " + sort + " " + name + " has the number " + number + ", as the " + sort + " " + other.name()
                        + " of "
                        + other.place();
        String remedy = "Name one of them otherwise, by "
                + (sort.equals("column") ? "@Column, @JoinColumn or @AttributeOverride"
                        : isRows(entity) ? "@CollectionTable" : "@Table or @JoinTable");
        faults.add(place, what, remedy);
    }

    /** Whether it is of a collection's rows, and named by that. */
    private static boolean isRows(PlainEntity entity) {
        return entity.javaClass() == ElementRow.class;
    }

    private void checkCount(PlainEntity entity) {
        int count = 0;
        for (PlainEntity at = entity; at != null; at = at.above()) {
            count += at.ownAttributes().size() + at.ownRelations().size();
        }
        if (count > MOST_MEMBERS) {
            faults.add(entity.javaClass(), "it has " + count + " attributes and relations, and may have "
                    + MOST_MEMBERS,
                    "Move some of them into an entity of their own, with @OneToOne");
        }
    }
}
