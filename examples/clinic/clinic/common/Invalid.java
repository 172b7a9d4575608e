package clinic.common;

import java.util.Map;

/** A request whose fields have faults: what is wrong with each of them. */
public final class Invalid extends Refusal {
    private static final long serialVersionUID = 1L;
    private final transient Map<String, String> faults;

    Invalid(Map<String, String> faults) {
        super(422, String.join("; ", faults.entrySet().stream().map(each -> each.getKey() + " " + each.getValue()).toList()));
        this.faults = faults;
    }

    @Override
    public Map<String, Object> told() {
        return Map.of("error", getMessage(), "faults", faults);
    }
}
