package clinic.billing;

import clinic.calendar.Appointment;
import clinic.common.Refusal;
import jakarta.persistence.CascadeType;
import jakarta.persistence.Column;
import jakarta.persistence.Entity;
import jakarta.persistence.FetchType;
import jakarta.persistence.GeneratedValue;
import jakarta.persistence.Id;
import jakarta.persistence.JoinColumn;
import jakarta.persistence.OneToMany;
import jakarta.persistence.OneToOne;
import jakarta.persistence.OrderBy;
import jakarta.persistence.Version;
import java.math.BigDecimal;
import java.time.LocalDate;
import java.util.ArrayList;
import java.util.List;

/** What an appointment costs. Its lines live and go with it. */
@Entity
public class Invoice {
    @Id @GeneratedValue private Long id;
    @Version private int version;
    @OneToOne(optional = false, fetch = FetchType.LAZY)
    @JoinColumn(name = "appointment_id", unique = true)
    private Appointment appointment;
    @Column(nullable = false) private LocalDate issued;
    private LocalDate paid;
    @OneToMany(mappedBy = "invoice", cascade = CascadeType.ALL, orphanRemoval = true)
    @OrderBy("place")
    private List<InvoiceLine> lines = new ArrayList<>();

    protected Invoice() {}

    Invoice(Appointment appointment, LocalDate issued, List<LineForm> lines) {
        this.appointment = appointment;
        this.issued = issued;
        for (var line : lines) {
            this.lines.add(new InvoiceLine(this, this.lines.size() + 1, line));
        }
    }

    void pay(LocalDate day) {
        if (paid != null) {
            throw Refusal.conflict("invoice " + id + " was paid on " + paid);
        }
        paid = day;
    }

    InvoiceView view() {
        var shown = lines.stream().map(InvoiceLine::form).toList();
        var total = lines.stream().map(InvoiceLine::total).reduce(BigDecimal.ZERO.setScale(2), BigDecimal::add);
        return new InvoiceView(id, appointment.id(), appointment.patient().name(), appointment.doctor().name(), issued,
                paid, shown, total);
    }
}
