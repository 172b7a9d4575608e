package clinic.billing;

import java.math.BigDecimal;
import java.time.YearMonth;

/** What a doctor's invoices of a month come to. */
public record DoctorMonth(long doctorId, String doctor, YearMonth month, BigDecimal total) {}
