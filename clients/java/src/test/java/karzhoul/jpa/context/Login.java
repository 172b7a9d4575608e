package karzhoul.jpa.context;

import jakarta.persistence.CascadeType;
import jakarta.persistence.Column;
import jakarta.persistence.Embeddable;
import jakarta.persistence.Embedded;
import jakarta.persistence.Entity;
import jakarta.persistence.GeneratedValue;
import jakarta.persistence.Id;
import jakarta.persistence.JoinColumn;
import jakarta.persistence.ManyToOne;
import jakarta.persistence.OneToMany;
import jakarta.persistence.Table;
import jakarta.persistence.UniqueConstraint;
import jakarta.persistence.Version;
import java.util.ArrayList;
import java.util.List;

/** Who logs in: by a name of its own, at a place in a hall that nobody else has. */
@Entity
@Table(name = "logins", uniqueConstraints = {
    @UniqueConstraint(columnNames = {"hall_id", "seat"}), @UniqueConstraint(columnNames = {"street", "house"})})
class Login {
    @Id @GeneratedValue Long id;
    @Version int version;
    @Column(unique = true) String name;
    @ManyToOne(cascade = CascadeType.PERSIST) Hall hall;
    Integer seat;
    @Embedded Home home;
    String note;

    Login() {}

    Login(String name) {
        this.name = name;
    }

    Login(Hall hall, Integer seat) {
        this.hall = hall;
        this.seat = seat;
    }

    @Embeddable
    static class Home {
        String street;
        int house;

        Home() {}

        Home(String street, int house) {
            this.street = street;
            this.house = house;
        }
    }

    @Entity
    static class Guest extends Login {
        @Column(unique = true) Long ticket;
    }

    /** A hall, whose tables go with it. */
    @Entity
    static class Hall {
        @Id @GeneratedValue Long id;
        String name;
        @OneToMany(mappedBy = "hall", cascade = CascadeType.ALL, orphanRemoval = true)
        List<Desk> desks = new ArrayList<>();

        Hall() {}

        Hall(String name) {
            this.name = name;
        }
    }

    @Entity
    static class Desk {
        @Id @GeneratedValue Long id;
        @Column(unique = true) String label;
        @ManyToOne @JoinColumn(unique = true) Login login;
        @ManyToOne Hall hall;

        Desk() {}

        Desk(Hall hall, String label) {
            this.hall = hall;
            this.label = label;
        }
    }
}
