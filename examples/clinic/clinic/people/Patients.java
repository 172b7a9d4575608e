package clinic.people;

import clinic.common.Page;
import clinic.common.Store;
import jakarta.persistence.EntityManager;
import jakarta.persistence.OptimisticLockException;
import java.util.Locale;

/** The patients of a transaction. */
public final class Patients {
    private static final String NAMED = " FROM Patient p WHERE LOWER(p.name) LIKE :name ESCAPE '!'";
    private final EntityManager manager;

    public Patients(EntityManager manager) {
        this.manager = manager;
    }

    /** Those whose name has this in it, whichever letters are capitals, by their names. */
    public Page<PatientRow> named(String part, int page) {
        var pattern = "%" + part.toLowerCase(Locale.ROOT).replaceAll("[!%_]", "!$0") + "%";
        var rows = manager.createQuery("SELECT p" + NAMED + " ORDER BY p.name, p.id", Patient.class)
                .setParameter("name", pattern)
                .setFirstResult(Page.first(page))
                .setMaxResults(Page.ROWS)
                .getResultList();
        var total = manager.createQuery("SELECT COUNT(p)" + NAMED, Long.class)
                .setParameter("name", pattern)
                .getSingleResult();
        var shown = rows.stream().map(each -> new PatientRow(each.id(), each.name(), each.born())).toList();
        return new Page<>(shown, page, total);
    }

    /** @throws clinic.common.Refusal where there is none */
    public Patient of(long id) {
        return Store.found(manager, Patient.class, id);
    }

    public Patient add(PatientForm form) {
        var patient = new Patient(form);
        manager.persist(patient);
        return patient;
    }

    /** @throws OptimisticLockException where the form shows another version than that which is stored */
    public Patient change(long id, PatientForm form) {
        var patient = of(id);
        if (form.version() == null || form.version() != patient.version()) {
            throw new OptimisticLockException("patient " + id + " has the version " + patient.version());
        }
        patient.set(form);
        return patient;
    }
}
