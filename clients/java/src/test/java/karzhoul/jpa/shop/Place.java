package karzhoul.jpa.shop;

import jakarta.persistence.Entity;
import jakarta.persistence.GeneratedValue;
import jakarta.persistence.Id;

/** A place of a team. */
@Entity
public class Place {
    @Id
    @GeneratedValue
    private long id;

    private String name;

    protected Place() {}

    public Place(String name) {
        this.name = name;
    }

    public long getId() {
        return id;
    }

    public String getName() {
        return name;
    }

    public void setName(String name) {
        this.name = name;
    }
}
