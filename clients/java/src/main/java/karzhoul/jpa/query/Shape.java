package karzhoul.jpa.query;

import jakarta.persistence.Tuple;
import java.util.List;

/** What becomes of a row: the class that a query was created with tells (chapter 3.10.1). */
final class Shape {
    private enum Kind { ITEM, ARRAY, TUPLE }

    private final List<Prepared.Column> columns;
    private final Kind kind;
    private final boolean isMade;
    private final Selected selected;

    private Shape(List<Prepared.Column> columns, Kind kind) {
        this(columns, kind, null);
    }

    private Shape(List<Prepared.Column> columns, Kind kind, Selected selected) {
        this.columns = columns;
        this.kind = kind;
        this.isMade = columns.stream().anyMatch(column -> column.made() != null);
        this.selected = selected;
    }

    /** Of the rows of a criteria query: its selection tells (chapter 6.5.10). */
    static Shape of(Prepared statement, Built.Result result) {
        Selected selected = new Selected(statement, result);
        List<Prepared.Column> columns = statement.items();
        if (result.type() == Tuple.class) {
            return new Shape(columns, Kind.TUPLE, selected);
        }
        if (result.isCompound()) {
            return new Shape(columns, Kind.ARRAY, selected);
        }
        selected.needItem();
        return new Shape(columns, Kind.ITEM, selected);
    }

    /** Without a class: the item of rows of one item, arrays else. */
    static Shape of(Prepared statement) {
        return new Shape(statement.items(), statement.items().size() == 1 ? Kind.ITEM : Kind.ARRAY);
    }

    /**
     * By a class.
     *
     * @throws IllegalArgumentException where rows of the statement can't be of it
     */
    static Shape of(Prepared statement, Class<?> type) {
        List<Prepared.Column> columns = statement.items();
        if (type == Tuple.class) {
            return new Shape(columns, Kind.TUPLE);
        }
        if (type == Object[].class && !(columns.size() == 1 && columns.get(0).java().isArray())) {
            return new Shape(columns, Kind.ARRAY);
        }
        if (columns.size() == 1) {
            Class<?> java = columns.get(0).java();
            if (Classes.boxed(type).isAssignableFrom(java) || java == Object.class) {
                return new Shape(columns, Kind.ITEM);
            }
            throw new IllegalArgumentException("rows of the query are of " + java.getName() + ", and no "
                    + type.getName()
                    + ": " + statement.text());
        }
        if (type == Object.class) {
            return new Shape(columns, Kind.ARRAY);
        }
        throw new IllegalArgumentException("rows of the query have " + columns.size()
                + " items, which Object[], Tuple and "
                + "SELECT NEW hold, and no " + type.getName() + ": " + statement.text());
    }

    Object of(Object[] row) {
        if (isMade) {
            for (int place = 0; place < row.length; place++) {
                Constructing made = columns.get(place).made();
                if (made != null) {
                    row[place] = made.make((Object[]) row[place]);
                }
            }
        }
        if (selected != null) {
            selected.convert(row);
        }
        return switch (kind) {
            case ITEM -> row[0];
            case ARRAY -> selected == null ? row : selected.array(row);
            case TUPLE -> new TupleRow(columns, selected == null ? null : selected.elements(), row);
        };
    }
}
