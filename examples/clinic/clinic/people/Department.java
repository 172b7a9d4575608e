package clinic.people;

import jakarta.persistence.Column;
import jakarta.persistence.Entity;
import jakarta.persistence.Id;

/** A part of the house, as cardiology, with the floor on which it is. */
@Entity
public class Department {
    @Id private String code;
    @Column(nullable = false) private String name;
    private int floor;

    protected Department() {}

    public Department(String code, String name, int floor) {
        this.code = code;
        this.name = name;
        this.floor = floor;
    }

    public String code() {
        return code;
    }

    public String name() {
        return name;
    }

    public int floor() {
        return floor;
    }
}
