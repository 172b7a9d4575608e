package clinic.documents;

import clinic.common.Checks;
import clinic.common.Store;
import clinic.people.Patients;
import jakarta.persistence.EntityManager;
import java.util.List;
import java.util.regex.Pattern;

/** The documents of a transaction. */
public final class Documents {
    /** Of how many bytes a document may be. */
    public static final int MOST = 2_000_000;
    private static final Pattern TYPE = Pattern.compile("[\\w.+-]+/[\\w.+-]+");
    private final EntityManager manager;

    public Documents(EntityManager manager) {
        this.manager = manager;
    }

    /** Those of a patient, the last one first. */
    public List<DocumentRow> of(long patient) {
        return manager.createQuery("SELECT d FROM Document d WHERE d.patient.id = :patient ORDER BY d.id DESC",
                        Document.class)
                .setParameter("patient", patient)
                .getResultList().stream().map(Document::row).toList();
    }

    /** @throws clinic.common.Refusal where there is no such patient, or what is uploaded has a fault */
    public DocumentRow add(long patient, String name, String type, byte[] content) {
        new Checks().filled("name", name, 200)
                .shaped("type", type, TYPE, "is no media type")
                .that(content.length > 0, "content", "is empty")
                .that(content.length <= MOST, "content", "is larger than " + MOST + " bytes")
                .done();
        var document = new Document(new Patients(manager).of(patient), name, type, content);
        manager.persist(document);
        return document.row();
    }

    /** @throws clinic.common.Refusal where there is none */
    public Download download(long id) {
        return Store.found(manager, Document.class, id).download();
    }

    /** @throws clinic.common.Refusal where there is none */
    public void delete(long id) {
        manager.remove(Store.found(manager, Document.class, id));
    }
}
