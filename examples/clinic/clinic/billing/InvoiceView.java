package clinic.billing;

import java.math.BigDecimal;
import java.time.LocalDate;
import java.util.List;

/** An invoice as it is shown, with the sum of its lines. */
public record InvoiceView(long id, long appointment, String patient, String doctor, LocalDate issued, LocalDate paid,
        List<LineForm> lines, BigDecimal total) {}
