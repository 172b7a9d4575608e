package wide;

import jakarta.persistence.AttributeOverride;
import jakarta.persistence.AttributeOverrides;
import jakarta.persistence.CascadeType;
import jakarta.persistence.CollectionTable;
import jakarta.persistence.Column;
import jakarta.persistence.Convert;
import jakarta.persistence.ElementCollection;
import jakarta.persistence.Embedded;
import jakarta.persistence.Entity;
import jakarta.persistence.EnumType;
import jakarta.persistence.Enumerated;
import jakarta.persistence.GeneratedValue;
import jakarta.persistence.Id;
import jakarta.persistence.JoinColumn;
import jakarta.persistence.JoinColumns;
import jakarta.persistence.JoinTable;
import jakarta.persistence.ManyToMany;
import jakarta.persistence.OneToMany;
import jakarta.persistence.OneToOne;
import jakarta.persistence.OrderColumn;
import jakarta.persistence.Table;
import jakarta.persistence.Temporal;
import jakarta.persistence.TemporalType;
import jakarta.persistence.UniqueConstraint;
import java.math.BigDecimal;
import java.time.LocalDate;
import java.time.LocalDateTime;
import java.time.LocalTime;
import java.util.ArrayList;
import java.util.Date;
import java.util.HashMap;
import java.util.HashSet;
import java.util.List;
import java.util.Map;
import java.util.Set;

/** An attribute of each sort, and a list of each. */
@Entity
@Table(name = "people", uniqueConstraints = @UniqueConstraint(columnNames = {"full_name", "born"}))
public class Person {
    @Id @GeneratedValue Long id;
    @Column(name = "full_name") String name;
    LocalDate born;
    LocalDateTime seen;
    LocalTime wakes;
    @Temporal(TemporalType.TIMESTAMP) Date joined;
    double weight;
    float share;
    boolean lost;
    short level;
    @Column(precision = 12, scale = 3) BigDecimal debt;
    byte[] photo;
    Mood mood;
    @Enumerated(EnumType.STRING) Mood other;
    @Convert(converter = Stars.class) Integer stars;
    @Embedded Address home;
    @Embedded
    @AttributeOverrides({
        @AttributeOverride(name = "street", column = @Column(name = "work_street")),
        @AttributeOverride(name = "city", column = @Column(name = "work_city"))
    })
    Address work;
    @OneToOne
    @JoinColumns({
        @JoinColumn(name = "seat_side", referencedColumnName = "at_side"),
        @JoinColumn(name = "seat_line", referencedColumnName = "line")
    })
    Seat seat;
    @ElementCollection @OrderColumn List<String> nicknames = new ArrayList<>();
    @ElementCollection @CollectionTable(name = "places") Set<Address> places = new HashSet<>();
    @ElementCollection Map<String, Integer> marks = new HashMap<>();
    @OneToMany(cascade = CascadeType.ALL) @JoinColumn(name = "owner_id") @OrderColumn(name = "pet_place")
    List<Animal> pets = new ArrayList<>();
    @ManyToMany Set<Club> clubs = new HashSet<>();
    @OneToMany @JoinTable(name = "garage") @OrderColumn List<Vehicle> vehicles = new ArrayList<>();

    protected Person() {}

    Person(String name) {
        this.name = name;
    }

    @Override
    public String toString() {
        var joinedAt = joined == null ? null : joined.toInstant();
        return String.join("; ", name, born + "", seen + "", wakes + "", joinedAt + "", weight + "", share + "", lost + "",
                level + "", (debt == null ? null : debt.setScale(3)) + "", photo == null ? "none" : photo.length + " bytes " + photo[0],
                mood + "", other + "", stars + "", home + "", work + "", seat + "", new ArrayList<>(nicknames).toString(),
                places.stream().map(Address::toString).sorted().toList().toString(),
                marks.entrySet().stream().map(Object::toString).sorted().toList().toString(), new ArrayList<>(pets).toString(),
                clubs.stream().map(Club::toString).sorted().toList().toString(), new ArrayList<>(vehicles).toString());
    }
}
