package wide;

import jakarta.persistence.Column;
import jakarta.persistence.Entity;
import jakarta.persistence.GeneratedValue;
import jakarta.persistence.GenerationType;
import jakarta.persistence.Id;
import jakarta.persistence.ManyToMany;
import jakarta.persistence.TableGenerator;
import java.util.HashSet;
import java.util.Set;

/** A generator by name, and the inverse side of a list. */
@Entity
public class Club {
    @Id
    @GeneratedValue(strategy = GenerationType.TABLE, generator = "clubs")
    @TableGenerator(name = "clubs", table = "counters", pkColumnName = "what", valueColumnName = "given",
            pkColumnValue = "club", initialValue = 100, allocationSize = 10)
    Long id;
    @Column(unique = true) String name;
    @ManyToMany(mappedBy = "clubs") Set<Person> members = new HashSet<>();

    protected Club() {}

    Club(String name) {
        this.name = name;
    }

    @Override
    public String toString() {
        return name;
    }
}
