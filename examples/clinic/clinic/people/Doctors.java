package clinic.people;

import clinic.common.Store;
import jakarta.persistence.EntityManager;
import java.util.List;

/** The doctors of a transaction, and their departments. */
public final class Doctors {
    private final EntityManager manager;

    public Doctors(EntityManager manager) {
        this.manager = manager;
    }

    /** All of them, by department and name. */
    public List<DoctorRow> all() {
        return manager.createQuery("""
                        SELECT NEW clinic.people.DoctorRow(d.id, d.name, p.name, p.floor)
                        FROM Doctor d JOIN d.department p ORDER BY p.name, d.name, d.id""", DoctorRow.class)
                .getResultList();
    }

    public List<Department> departments() {
        return manager.createQuery("SELECT d FROM Department d ORDER BY d.name", Department.class).getResultList();
    }

    /** @throws clinic.common.Refusal where there is none */
    public Doctor of(long id) {
        return Store.found(manager, Doctor.class, id);
    }

    /** @throws clinic.common.Refusal where there is no such department */
    public Doctor add(DoctorForm form) {
        var doctor = new Doctor(form.name().strip(), Store.found(manager, Department.class, form.department()));
        manager.persist(doctor);
        return doctor;
    }
}
