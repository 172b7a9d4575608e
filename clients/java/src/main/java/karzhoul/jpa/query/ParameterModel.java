package karzhoul.jpa.query;

/**
 * A parameter of a statement.
 *
 * @param at where it stands first
 * @param key its name, or its number
 * @param type the type of the first path that it stands beside; Collection of a list of IN, Object where nothing tells
 */
record ParameterModel(int at, Object key, Class<?> type) {
    /** The parameter as it is written. */
    String told() {
        return (key instanceof String ? ":" : "?") + key;
    }
}
