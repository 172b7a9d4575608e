package karzhoul.jpa.shop;

import jakarta.persistence.Entity;
import jakarta.persistence.Id;
import jakarta.persistence.ManyToMany;
import jakarta.persistence.PrePersist;
import java.util.HashSet;
import java.util.Objects;
import java.util.Set;

/** What persons are marked with; equal by its code, which PrePersist gives where it is missing. */
@Entity
public class Tag {
    @Id
    private String code;

    @ManyToMany(mappedBy = "tags")
    private Set<Person> persons = new HashSet<>();

    protected Tag() {}

    public Tag(String code) {
        this.code = code;
    }

    public String getCode() {
        return code;
    }

    public Set<Person> getPersons() {
        return persons;
    }

    @PrePersist
    void giveCode() {
        if (code == null) {
            code = "made";
        }
    }

    @Override
    public boolean equals(Object other) {
        return other instanceof Tag tag && Objects.equals(tag.getCode(), getCode());
    }

    @Override
    public int hashCode() {
        return Objects.hashCode(code);
    }

    @Override
    public String toString() {
        return "Tag " + code;
    }
}
