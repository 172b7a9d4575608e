package karzhoul.jpa.model;

import jakarta.persistence.PersistenceException;
import java.util.List;
import java.util.stream.Collectors;

/** A persistence unit that can't be served: its message lists each fault, a line for each. */
public final class RefusedUnit extends PersistenceException {
    private static final long serialVersionUID = 1;

    private final transient List<Fault> faults;

    /** A refusal of the unit of this name. */
    public RefusedUnit(String unit, List<Fault> faults) {
        super(worded(unit, faults));
        this.faults = List.copyOf(faults);
    }

    /** The faults, in the order in which they were found; none once it was serialized. */
    public List<Fault> faults() {
        return faults == null ? List.of() : faults;
    }

    private static String worded(String unit, List<Fault> faults) {
        String count = faults.size() == 1 ? "a fault" : faults.size() + " faults";
        return faults.stream()
                .map(fault -> "\n- " + fault)
                .collect(Collectors.joining("", "The persistence unit " + unit + " has " + count + ":", ""));
    }
}
