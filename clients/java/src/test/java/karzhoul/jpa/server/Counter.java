package karzhoul.jpa.server;

import jakarta.persistence.Entity;
import jakarta.persistence.Id;
import jakarta.persistence.Version;

/** What several processes count up. */
@Entity
class Counter {
    @Id int id;
    int count;
    @Version int version;

    Counter() {}

    Counter(int id) {
        this.id = id;
    }
}
