package clinic.calendar;

import clinic.common.Refusal;
import clinic.common.Store;
import clinic.people.Doctors;
import clinic.people.Patients;
import jakarta.persistence.EntityManager;
import java.time.LocalDate;
import java.util.List;

/** The appointments of a transaction. */
public final class Appointments {
    private static final String SHOWN = "SELECT a FROM Appointment a JOIN FETCH a.doctor JOIN FETCH a.patient ";
    private final EntityManager manager;

    public Appointments(EntityManager manager) {
        this.manager = manager;
    }

    /** Those of a day, by their times. */
    public List<AppointmentRow> on(LocalDate day) {
        return manager.createQuery(SHOWN + "WHERE a.starts >= :from AND a.starts < :to ORDER BY a.starts, a.id",
                        Appointment.class)
                .setParameter("from", day.atStartOfDay())
                .setParameter("to", day.plusDays(1).atStartOfDay())
                .getResultList().stream().map(Appointment::row).toList();
    }

    /** Those of a patient, the last one first. */
    public List<AppointmentRow> of(long patient) {
        return manager.createQuery(SHOWN + "WHERE a.patient.id = :patient ORDER BY a.starts DESC, a.id",
                        Appointment.class)
                .setParameter("patient", patient)
                .getResultList().stream().map(Appointment::row).toList();
    }

    /** @throws Refusal where there is none */
    public Appointment at(long id) {
        return Store.found(manager, Appointment.class, id);
    }

    /** @throws Refusal where there is no such doctor or patient, or the doctor has an appointment then */
    public AppointmentRow book(AppointmentForm form) {
        if (isTaken(form)) {
            throw taken(form);
        }
        var appointment = new Appointment(new Doctors(manager).of(form.doctor()),
                new Patients(manager).of(form.patient()), form.starts(), form.reason());
        manager.persist(appointment);
        return appointment.row();
    }

    /** Whether the doctor has an appointment at that time. */
    public boolean isTaken(AppointmentForm form) {
        return manager.createQuery(
                        "SELECT COUNT(a) FROM Appointment a WHERE a.doctor.id = :doctor AND a.starts = :starts",
                        Long.class)
                .setParameter("doctor", form.doctor())
                .setParameter("starts", form.starts())
                .getSingleResult() > 0;
    }

    /** @throws Refusal where there is none, or it has an invoice */
    public void cancel(long id) {
        var appointment = at(id);
        if (appointment.state() == AppointmentState.BILLED) {
            throw Refusal.conflict("appointment " + id + " has an invoice");
        }
        manager.remove(appointment);
    }

    static Refusal taken(AppointmentForm form) {
        return Refusal.conflict("the doctor has an appointment at " + form.starts());
    }
}
