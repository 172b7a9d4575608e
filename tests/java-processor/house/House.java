package house;

import jakarta.persistence.Entity;
import jakarta.persistence.Id;
import jakarta.persistence.ManyToOne;
import jakarta.persistence.OneToMany;
import jakarta.persistence.Transient;
import java.net.URL;
import java.util.ArrayList;
import java.util.Collection;
import java.util.HashSet;
import java.util.Set;

/** A house, by properties. */
@Entity
public class House {
    private String name;
    private URL web;
    private Set<Person> people = new HashSet<>();
    private Collection<Room> rooms = new ArrayList<>();

    /** A room of a house: an entity within another one. */
    @Entity(name = "Room")
    public static class Room {
        @Id
        long number;
        @ManyToOne
        House house;
    }

    @Id
    public String getName() {
        return name;
    }

    public void setName(String name) {
        this.name = name;
    }

    public URL getURL() {
        return web;
    }

    public void setURL(URL web) {
        this.web = web;
    }

    @OneToMany(mappedBy = "home")
    public Set<Person> getPeople() {
        return people;
    }

    public void setPeople(Set<Person> people) {
        this.people = people;
    }

    @OneToMany(mappedBy = "house")
    public Collection<Room> getRooms() {
        return rooms;
    }

    public void setRooms(Collection<Room> rooms) {
        this.rooms = rooms;
    }

    @Transient
    public int getSize() {
        return people.size();
    }

    public String getShout() {
        return name.toUpperCase(java.util.Locale.ROOT);
    }
}
