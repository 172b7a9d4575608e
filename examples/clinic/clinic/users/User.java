package clinic.users;

import jakarta.persistence.Column;
import jakarta.persistence.Entity;
import jakarta.persistence.EnumType;
import jakarta.persistence.Enumerated;
import jakarta.persistence.Id;
import jakarta.persistence.Table;
import jakarta.persistence.Version;

/** Who works with the clinic's pages. Of the password a salt and a hash are kept. */
@Entity
@Table(name = "users")
public class User {
    @Id private String login;
    @Version private int version;
    @Enumerated(EnumType.STRING)
    @Column(nullable = false)
    private Role role;
    @Column(nullable = false) private byte[] salt;
    @Column(nullable = false) private byte[] hash;

    protected User() {}

    User(String login, Role role, String password) {
        this.login = login;
        this.role = role;
        this.salt = Passwords.salt();
        this.hash = Passwords.hash(password, salt);
    }

    public String login() {
        return login;
    }

    public Role role() {
        return role;
    }

    boolean has(String password) {
        return Passwords.isSame(hash, Passwords.hash(password, salt));
    }
}
