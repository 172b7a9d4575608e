package clinic.calendar;

import clinic.people.Doctor;
import clinic.people.Patient;
import jakarta.persistence.Column;
import jakarta.persistence.Entity;
import jakarta.persistence.EnumType;
import jakarta.persistence.Enumerated;
import jakarta.persistence.FetchType;
import jakarta.persistence.GeneratedValue;
import jakarta.persistence.Id;
import jakarta.persistence.JoinColumn;
import jakarta.persistence.ManyToOne;
import jakarta.persistence.Table;
import jakarta.persistence.UniqueConstraint;
import jakarta.persistence.Version;
import java.time.LocalDateTime;

/** A quarter of an hour of a doctor's for a patient. A doctor gives none twice: the store sees to that. */
@Entity
@Table(uniqueConstraints = @UniqueConstraint(columnNames = {"doctor_id", "starts"}))
public class Appointment {
    @Id @GeneratedValue private Long id;
    @Version private int version;
    @ManyToOne(optional = false, fetch = FetchType.LAZY)
    @JoinColumn(name = "doctor_id")
    private Doctor doctor;
    @ManyToOne(optional = false, fetch = FetchType.LAZY)
    private Patient patient;
    @Column(nullable = false) private LocalDateTime starts;
    private String reason;
    @Enumerated(EnumType.STRING)
    @Column(nullable = false)
    private AppointmentState state = AppointmentState.PLANNED;

    protected Appointment() {}

    Appointment(Doctor doctor, Patient patient, LocalDateTime starts, String reason) {
        this.doctor = doctor;
        this.patient = patient;
        this.starts = starts;
        this.reason = reason;
    }

    public Long id() {
        return id;
    }

    public Doctor doctor() {
        return doctor;
    }

    public Patient patient() {
        return patient;
    }

    public LocalDateTime starts() {
        return starts;
    }

    public AppointmentState state() {
        return state;
    }

    /** From now on there is an invoice of it. This raises the version, so that nobody cancels it meanwhile. */
    public void bill() {
        state = AppointmentState.BILLED;
    }

    AppointmentRow row() {
        return new AppointmentRow(id, starts, doctor.id(), doctor.name(), patient.id(), patient.name(), reason, state);
    }
}
