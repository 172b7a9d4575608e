package karzhoul.jpa.engine;

import static karzhoul.jpa.model.StoredDescription.ENTITY;
import static karzhoul.jpa.model.StoredDescription.PART;
import static karzhoul.jpa.model.StoredDescription.TEXT;

import jakarta.persistence.PersistenceException;
import java.io.ByteArrayOutputStream;
import java.io.IOException;
import java.io.InputStream;
import java.io.OutputStream;
import java.nio.charset.StandardCharsets;
import java.nio.file.FileAlreadyExistsException;
import java.nio.file.Files;
import java.nio.file.Path;
import java.util.ArrayList;
import java.util.Arrays;
import java.util.HexFormat;
import java.util.List;
import karzhoul.jpa.model.StoredDescription;
import karzhoul.jpa.model.Transition;
import karzhoul.jpa.model.Unique;

/**
 * What the rows of a store mean, kept in the store itself: it goes where the store goes. A store that was written with
 * other tables, columns or meanings is refused before it is changed.
 *
 * <p>A new store is described by its first commit. Until then a file {@code FILE.new} stands beside it, so that one
 * whose first start was broken off isn't taken for a store of others.
 */
public final class StoreDescription {
    private static final int PART_BYTES = 60_000;
    private static final String MARK = ".new";
    private static final String NULL = "\"ok\":null}";
    private static final String REMEDY = "Keep the names of before, by @Entity, @Table, @Column, @JoinColumn, "
            + "@JoinTable and @DiscriminatorValue; say what becomes of columns, by karzhoul.defaults, karzhoul.dropped and "
            + "karzhoul.moved; or take another file for a new store.";

    private static final String EMPTY = "\"ok\":[0]}";
    private static final String OF_SERVER = "Over a server nothing is brought over: do that with the file, while no server "
            + "has it. ";

    private final Path store;
    private final String place;
    private final String description;
    private final Path mark;
    private final List<String> counted;
    private boolean isNew;
    private boolean isAdopting;
    private String before;

    /** @param description what the classes say, as {@link karzhoul.jpa.model.UnitModel#description()} */
    public StoreDescription(Path store, String description) {
        this(store, store.toString(), description, List.of());
    }

    private StoreDescription(Path store, String place, String description, List<String> counted) {
        this.store = store;
        this.place = place;
        this.description = description;
        this.counted = counted;
        mark = store == null ? null : store.resolveSibling(store.getFileName() + MARK);
    }

    /**
     * That of a store which a server has: it is new where it has no objects.
     *
     * @param counted the names of the entities in the mapping
     */
    static StoreDescription ofServer(String address, String description, List<String> counted) {
        return new StoreDescription(null, address, description, counted);
    }

    /** A store that says nothing of itself is taken for one of these classes: the program judges whether its rows can be. */
    public void adopt() {
        isAdopting = true;
    }

    /**
     * To be called before the program opens the store.
     *
     * @throws PersistenceException where the mark of a new store can't be made
     */
    public void prepare() {
        try {
            isNew = isEmpty() || Files.exists(mark);
            if (isNew && !Files.exists(mark)) {
                Files.createFile(mark);
            }
        } catch (FileAlreadyExistsException another) {
            // Another JVM begins with the same store: the program lets one of them have it.
        } catch (IOException fault) {
            String why = Files.isDirectory(store.toAbsolutePath().getParent()) ? fault.toString() : Unopened.why(store);
            throw new PersistenceException("The store " + store + " can't be made: " + why, fault);
        }
    }

    private boolean isEmpty() throws IOException {
        return !Files.exists(store) || Files.size(store) == 0;
    }

    /**
     * To be called first, on the pipes of the program that has opened the store: its description is read. The program is
     * as just begun afterwards.
     *
     * @throws PersistenceException where the store was written with other classes, or by another door
     * @throws IOException where the program has ended
     */
    public void check(OutputStream out, InputStream in) throws IOException {
        Dialogue program = new Dialogue(out, in);
        program.ask("{\"call\":\"createEntityManager\"}");
        String stored = read(program);
        if (stored == null && mark == null) {
            isNew = isEmpty(program);
        }
        if (stored == null && !isNew && !isAdopting) {
            throw new PersistenceException("The store " + place + " doesn't say with which classes it was written, as "
                    + "one of a Java unit does: it is another client's. " + REMEDY);
        }
        if (stored == null) {
            before = "";
        } else if (!stored.equals(description)) {
            before = stored;
            if (!new Differences(stored, description).areTaken()) {
                throw otherClasses(stored);
            }
        }
        program.ask("{\"call\":\"restart\"}");
    }

    /** Whether the store was written with other classes, and a transition leads from these to those of the unit. */
    boolean isPlanned(Transition transition) {
        return before != null && !before.isEmpty() && new Differences(before, description).arePlanned(transition);
    }

    /** Whether the store is new, or was written with classes of before, so that its description is to be written. */
    boolean isToBeWritten() {
        return before != null;
    }

    /** Whether the store has no rows yet of the values that are unique. */
    boolean isNew(Unique unique) {
        return new Differences(before, description).isNew(unique.description());
    }

    /** Why a store isn't brought over. */
    PersistenceException refused(String why) {
        return new PersistenceException("The store " + place + " was written with other classes, and isn't brought over to "
                + "these:" + new Differences(before, description).words() + "\n" + why);
    }

    /** The description in parts, of which each is a row. */
    List<byte[]> parts() {
        byte[] all = description.getBytes(StandardCharsets.UTF_8);
        List<byte[]> parts = new ArrayList<>();
        for (int from = 0; from < all.length; from += PART_BYTES) {
            parts.add(Arrays.copyOfRange(all, from, Math.min(from + PART_BYTES, all.length)));
        }
        return parts;
    }

    /** The store says what the classes say. */
    void isWritten() {
        try {
            if (mark != null) {
                Files.deleteIfExists(mark);
            }
            isNew = false;
            before = null;
        } catch (IOException fault) {
            throw new PersistenceException("The mark " + mark + " of a new store can't be deleted: " + fault, fault);
        }
    }

    /**
     * Why the program didn't open the store, in words, where other classes are the reason; else what it said.
     *
     * @param refused what is raised otherwise
     */
    public PersistenceException explained(String program, PersistenceException refused) {
        try {
            if (isEmpty()) {
                Files.deleteIfExists(mark);
                return refused;
            }
            String stored = StoredText.read(program, store);
            before = stored;
            return stored == null || stored.equals(description) ? refused : otherClasses(stored);
        } catch (IOException | InterruptedException fault) {
            refused.addSuppressed(fault);
            return refused;
        }
    }

    private PersistenceException otherClasses(String stored) {
        return new PersistenceException("The store " + place + " was written with other classes, and isn't opened:"
                + new Differences(stored, description).words() + "\n" + (mark == null ? OF_SERVER : "") + REMEDY);
    }

    private boolean isEmpty(Dialogue program) throws IOException {
        for (String entity : counted) {
            String text = "SELECT COUNT(e) FROM " + entity + " e";
            if (!program.ask("{\"call\":\"query\",\"em\":1,\"text\":\"" + text + "\"}").endsWith(EMPTY)) {
                return false;
            }
        }
        return true;
    }

    private static String read(Dialogue program) throws IOException {
        ByteArrayOutputStream bytes = new ByteArrayOutputStream();
        for (int part = 1;; part++) {
            String found = program.ask("{\"call\":\"find\",\"em\":1,\"entity\":\"" + ENTITY + "\",\"key\":[" + part
                    + "]}");
            if (found.endsWith(NULL)) {
                return part == 1 ? null : bytes.toString(StandardCharsets.UTF_8);
            }
            bytes.write(hex(program.ask("{\"call\":\"get\",\"object\":" + part + ",\"name\":\"" + TEXT + "\"}")));
        }
    }

    private static byte[] hex(String reply) throws IOException {
        int from = reply.indexOf("{\"hex\":\"");
        int to = reply.lastIndexOf("\"}}");
        if (from < 0 || to < from) {
            throw new IOException("the program answered " + reply);
        }
        return HexFormat.of().parseHex(reply, from + "{\"hex\":\"".length(), to);
    }

    /** A line out, a line in. */
    private record Dialogue(OutputStream out, InputStream in) {
        String ask(String line) throws IOException {
            out.write((line + "\n").getBytes(StandardCharsets.UTF_8));
            out.flush();
            ByteArrayOutputStream reply = new ByteArrayOutputStream();
            for (int at = in.read(); at != '\n'; at = in.read()) {
                if (at < 0) {
                    throw new IOException("the program has ended");
                }
                reply.write(at);
            }
            String answer = reply.toString(StandardCharsets.UTF_8);
            if (answer.startsWith("{\"error\"")) {
                throw new IOException("the program answered " + answer + " to "
                        + line.substring(0, Math.min(line.length(), 80)));
            }
            return answer;
        }
    }
}
