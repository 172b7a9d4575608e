package clinic.people;

import jakarta.persistence.Column;
import jakarta.persistence.Entity;
import jakarta.persistence.GeneratedValue;
import jakarta.persistence.Id;
import jakarta.persistence.Version;
import java.time.LocalDate;

/** Who comes to the clinic. */
@Entity
public class Patient {
    @Id @GeneratedValue private Long id;
    @Version private int version;
    @Column(nullable = false) private String name;
    @Column(nullable = false) private LocalDate born;
    private String email;
    private String phone;
    private String notes;

    protected Patient() {}

    Patient(PatientForm form) {
        set(form);
    }

    public Long id() {
        return id;
    }

    public int version() {
        return version;
    }

    public String name() {
        return name;
    }

    public LocalDate born() {
        return born;
    }

    /** What a form of this patient shows. */
    public PatientForm form() {
        return new PatientForm(name, born, email, phone, notes, version);
    }

    void set(PatientForm form) {
        name = form.name().strip();
        born = form.born();
        email = form.email();
        phone = form.phone();
        notes = form.notes();
    }
}
