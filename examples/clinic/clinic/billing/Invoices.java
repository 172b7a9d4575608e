package clinic.billing;

import clinic.calendar.AppointmentState;
import clinic.calendar.Appointments;
import clinic.common.Page;
import clinic.common.Refusal;
import clinic.common.Store;
import jakarta.persistence.EntityManager;
import java.time.LocalDate;
import java.time.YearMonth;
import java.util.ArrayList;
import java.util.LinkedHashMap;
import java.util.List;

/** The invoices of a transaction. */
public final class Invoices {
    private final EntityManager manager;

    public Invoices(EntityManager manager) {
        this.manager = manager;
    }

    /** @throws Refusal where there is no such appointment, or it has an invoice */
    public InvoiceView issue(long appointment, InvoiceForm form) {
        var billed = new Appointments(manager).at(appointment);
        if (billed.state() == AppointmentState.BILLED) {
            throw Refusal.conflict("appointment " + appointment + " has an invoice");
        }
        billed.bill();
        var invoice = new Invoice(billed, form.issued(), form.lines());
        manager.persist(invoice);
        return invoice.view();
    }

    /** @throws Refusal where there is none */
    public InvoiceView of(long id) {
        return Store.found(manager, Invoice.class, id).view();
    }

    /** A page of all of them, the last one first. */
    public Page<InvoiceView> all(int page) {
        var rows = manager.createQuery("SELECT i FROM Invoice i JOIN FETCH i.appointment ORDER BY i.id DESC", Invoice.class)
                .setFirstResult(Page.first(page))
                .setMaxResults(Page.ROWS)
                .getResultList().stream().map(Invoice::view).toList();
        var total = manager.createQuery("SELECT COUNT(i) FROM Invoice i", Long.class).getSingleResult();
        return new Page<>(rows, page, total);
    }

    /** @throws Refusal where there is none, or it is paid */
    public InvoiceView pay(long id, LocalDate day) {
        var invoice = Store.found(manager, Invoice.class, id);
        invoice.pay(day);
        return invoice.view();
    }

    /** What the invoices of a year come to, by doctor and month. */
    public List<DoctorMonth> turnover(int year) {
        var days = manager.createQuery("""
                        SELECT NEW clinic.billing.DoctorDay(d.id, d.name, i.issued, SUM(l.quantity * l.price))
                        FROM InvoiceLine l JOIN l.invoice i JOIN i.appointment a JOIN a.doctor d
                        WHERE i.issued BETWEEN :first AND :last
                        GROUP BY d.id, d.name, i.issued ORDER BY d.name, d.id, i.issued""", DoctorDay.class)
                .setParameter("first", LocalDate.of(year, 1, 1))
                .setParameter("last", LocalDate.of(year, 12, 31))
                .getResultList();
        // The language groups by paths, and a month is none.
        var months = new LinkedHashMap<List<Object>, DoctorMonth>();
        for (var day : days) {
            var month = new DoctorMonth(day.doctorId(), day.doctor(), YearMonth.from(day.day()), day.total());
            months.merge(List.of(month.doctorId(), month.month()), month, (one, other) -> new DoctorMonth(
                    one.doctorId(), one.doctor(), one.month(), one.total().add(other.total())));
        }
        return new ArrayList<>(months.values());
    }
}
