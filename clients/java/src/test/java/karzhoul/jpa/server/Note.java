package karzhoul.jpa.server;

import jakarta.persistence.CascadeType;
import jakarta.persistence.Entity;
import jakarta.persistence.GeneratedValue;
import jakarta.persistence.Id;
import jakarta.persistence.OneToMany;
import java.util.ArrayList;
import java.util.List;

/** A text with others behind it. */
@Entity
class Note {
    @Id @GeneratedValue Long id;
    String text;
    @OneToMany(cascade = CascadeType.ALL) List<Note> more = new ArrayList<>();

    Note() {}

    Note(String text) {
        this.text = text;
    }
}
