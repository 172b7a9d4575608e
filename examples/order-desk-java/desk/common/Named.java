package desk.common;

import jakarta.persistence.Column;
import jakarta.persistence.MappedSuperclass;
import jakarta.persistence.PrePersist;
import jakarta.persistence.PreUpdate;
import jakarta.persistence.Version;

/** What has a version, and a name that is never empty. */
@MappedSuperclass
public abstract class Named {
    @Version private int version;
    @Column(nullable = false) private String name;

    public String name() {
        return name;
    }

    public void rename(String name) {
        this.name = name;
    }

    /** A callback that refuses: the transaction is rolled back. */
    @PrePersist
    @PreUpdate
    void checkName() {
        if (name == null || name.isBlank()) {
            throw new DeskException("a " + getClass().getSimpleName().toLowerCase() + " has a name");
        }
    }
}
