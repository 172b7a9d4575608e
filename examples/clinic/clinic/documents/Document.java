package clinic.documents;

import clinic.people.Patient;
import jakarta.persistence.CollectionTable;
import jakarta.persistence.Column;
import jakarta.persistence.ElementCollection;
import jakarta.persistence.Entity;
import jakarta.persistence.FetchType;
import jakarta.persistence.GeneratedValue;
import jakarta.persistence.Id;
import jakarta.persistence.ManyToOne;
import jakarta.persistence.OrderColumn;
import jakarta.persistence.Version;
import java.io.ByteArrayOutputStream;
import java.time.LocalDateTime;
import java.time.temporal.ChronoUnit;
import java.util.ArrayList;
import java.util.Arrays;
import java.util.List;

/** A letter, a picture or the like of a patient's, kept in pieces, which are read when it is downloaded. */
@Entity
public class Document {
    private static final int PIECE = 50_000;
    @Id @GeneratedValue private Long id;
    @Version private int version;
    @ManyToOne(optional = false, fetch = FetchType.LAZY)
    private Patient patient;
    @Column(nullable = false) private String name;
    @Column(nullable = false) private String type;
    private int size;
    @Column(nullable = false) private LocalDateTime uploaded;
    @ElementCollection
    @CollectionTable(name = "Document_pieces")
    @OrderColumn(name = "place")
    @Column(name = "piece", length = PIECE)
    private List<byte[]> pieces = new ArrayList<>();

    protected Document() {}

    Document(Patient patient, String name, String type, byte[] content) {
        this.patient = patient;
        this.name = name;
        this.type = type;
        this.size = content.length;
        this.uploaded = LocalDateTime.now().truncatedTo(ChronoUnit.SECONDS);
        for (var from = 0; from < content.length; from += PIECE) {
            pieces.add(Arrays.copyOfRange(content, from, Math.min(from + PIECE, content.length)));
        }
    }

    byte[] content() {
        var content = new ByteArrayOutputStream(size);
        pieces.forEach(content::writeBytes);
        return content.toByteArray();
    }

    Download download() {
        return new Download(name, type, content());
    }

    DocumentRow row() {
        return new DocumentRow(id, name, type, size, uploaded);
    }
}
