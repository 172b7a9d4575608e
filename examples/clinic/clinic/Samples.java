package clinic;

import clinic.calendar.AppointmentForm;
import clinic.calendar.Appointments;
import clinic.common.Store;
import clinic.people.Department;
import clinic.people.DoctorForm;
import clinic.people.Doctors;
import clinic.people.PatientForm;
import clinic.people.Patients;
import clinic.users.Role;
import clinic.users.UserForm;
import clinic.users.Users;
import jakarta.persistence.EntityManager;
import java.time.LocalDate;
import java.util.List;

/** What a new store begins with, so that there is something to look at: in one transaction, all or nothing. */
final class Samples {
    private static final List<String> PATIENTS = List.of("Ada Marsh", "Bob Émile", "Cleo Öz", "Dan O'Hara", "Eve Lund");

    private Samples() {}

    /** Fills a store that has no users; any other is left as it is. */
    static void fill(Store store, String password) {
        store.within(manager -> {
            if (new Users(manager).all().isEmpty()) {
                fill(manager, password);
            }
            return null;
        });
    }

    private static void fill(EntityManager manager, String password) {
        new Users(manager).add(new UserForm("admin", password, Role.ADMINISTRATOR).checked());
        new Users(manager).add(new UserForm("desk", password, Role.STAFF).checked());
        manager.persist(new Department("CARD", "Cardiology", 2));
        manager.persist(new Department("DERM", "Dermatology", 3));
        var doctors = new Doctors(manager);
        var first = doctors.add(new DoctorForm("Dr. Roth", "CARD"));
        doctors.add(new DoctorForm("Dr. Weil", "CARD"));
        doctors.add(new DoctorForm("Dr. Ek", "DERM"));
        var time = LocalDate.now().atTime(9, 0);
        for (var name : PATIENTS) {
            var born = LocalDate.of(1950 + 7 * PATIENTS.indexOf(name), 3, 14);
            var patient = new Patients(manager).add(new PatientForm(name, born, null, null, null, null).checked());
            new Appointments(manager).book(new AppointmentForm(first.id(), patient.id(), time, "first visit"));
            time = time.plusMinutes(15);
        }
    }
}
