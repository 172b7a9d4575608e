package karzhoul.jpa.shop;

import jakarta.persistence.CascadeType;
import jakarta.persistence.Entity;
import jakarta.persistence.Id;
import jakarta.persistence.MapsId;
import jakarta.persistence.OneToOne;

/** What is known of a place: its key is that of the place. */
@Entity
public class Profile {
    @Id
    private Long id;

    @MapsId
    @OneToOne(cascade = CascadeType.PERSIST)
    private Place place;

    private String text;

    protected Profile() {}

    public Profile(Place place, String text) {
        this.place = place;
        this.text = text;
    }

    public Long getId() {
        return id;
    }

    public Place getPlace() {
        return place;
    }

    public String getText() {
        return text;
    }
}
