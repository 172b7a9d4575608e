package clinic.people;

import jakarta.persistence.Column;
import jakarta.persistence.Entity;
import jakarta.persistence.FetchType;
import jakarta.persistence.GeneratedValue;
import jakarta.persistence.Id;
import jakarta.persistence.ManyToOne;
import jakarta.persistence.Version;

/** Who sees patients. */
@Entity
public class Doctor {
    @Id @GeneratedValue private Long id;
    @Version private int version;
    @Column(nullable = false) private String name;
    @ManyToOne(optional = false, fetch = FetchType.LAZY)
    private Department department;

    protected Doctor() {}

    public Doctor(String name, Department department) {
        this.name = name;
        this.department = department;
    }

    public Long id() {
        return id;
    }

    public String name() {
        return name;
    }

    public Department department() {
        return department;
    }
}
