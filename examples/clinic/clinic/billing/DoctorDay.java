package clinic.billing;

import java.math.BigDecimal;
import java.time.LocalDate;

/** What a doctor's invoices of a day come to. */
public record DoctorDay(long doctorId, String doctor, LocalDate day, BigDecimal total) {}
