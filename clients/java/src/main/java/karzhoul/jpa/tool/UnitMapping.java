package karzhoul.jpa.tool;

import java.io.IOException;
import java.util.Map;
import karzhoul.jpa.model.StoredMapping;
import karzhoul.jpa.model.UnitModel;
import karzhoul.jpa.spi.Units;

/** The mapping of a unit on the class path; it needs the libraries of the door. */
final class UnitMapping {
    private UnitMapping() {}

    /**
     * That of stores which say nothing of themselves, in the names of tables and columns; or that in the door's own
     * names, which a server of such a store has.
     *
     * @throws IOException where there is no such unit
     */
    static String of(String unit, boolean isServed) throws IOException {
        UnitModel found = find(unit);
        return isServed ? found.mapping() : StoredMapping.ofClasses(found.description());
    }

    /**
     * That of a unit, with the tables that another provider looks for.
     *
     * @throws IOException where there is no such unit, or what of it can't be tables
     */
    static String tables(String unit) throws IOException {
        try {
            return find(unit).tables();
        } catch (IllegalArgumentException refused) {
            throw new IOException(refused.getMessage(), refused);
        }
    }

    /** The unit may say where its store is, or leave that to the application: no store is opened. */
    private static UnitModel find(String unit) throws IOException {
        return Units.find(unit, Map.of("jakarta.persistence.jdbc.url", "karzhoul:memory")).orElseThrow(() -> new IOException(
                "there is no unit " + unit + " of karzhoul.jpa.KarzhoulProvider on the class path")).unit();
    }
}
