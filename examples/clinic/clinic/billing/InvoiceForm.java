package clinic.billing;

import clinic.common.Checks;
import java.time.LocalDate;
import java.util.List;

/** An invoice that is to be issued; today where no day is said. */
public record InvoiceForm(LocalDate issued, List<LineForm> lines) {
    private static final int MOST = 50;

    /** @throws clinic.common.Invalid where a field has a fault */
    public InvoiceForm checked() {
        var checks = new Checks().that(lines != null && !lines.isEmpty(), "lines", "are missing")
                .that(lines == null || lines.size() <= MOST, "lines", "are more than " + MOST);
        for (var at = 0; lines != null && at < lines.size(); at++) {
            lines.get(at).check(checks, "lines." + at + ".");
        }
        checks.done();
        return new InvoiceForm(issued == null ? LocalDate.now() : issued, lines);
    }
}
