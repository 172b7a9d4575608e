package karzhoul.jpa.context;

import static org.junit.jupiter.api.Assertions.assertEquals;
import static org.junit.jupiter.api.Assertions.assertThrows;
import static org.junit.jupiter.api.Assertions.assertTrue;

import jakarta.persistence.CascadeType;
import jakarta.persistence.Entity;
import jakarta.persistence.EntityManager;
import jakarta.persistence.GeneratedValue;
import jakarta.persistence.Id;
import jakarta.persistence.JoinTable;
import jakarta.persistence.ManyToMany;
import jakarta.persistence.ManyToOne;
import jakarta.persistence.OneToMany;
import jakarta.persistence.OptimisticLockException;
import jakarta.persistence.OrderColumn;
import jakarta.persistence.RollbackException;
import jakarta.persistence.Table;
import jakarta.persistence.Version;
import java.nio.file.Path;
import java.util.ArrayList;
import java.util.Collections;
import java.util.List;
import java.util.Random;
import java.util.Set;
import java.util.TreeSet;
import java.util.function.Consumer;
import java.util.function.Function;
import karzhoul.jpa.model.EntityModel;
import karzhoul.jpa.model.Relation;
import org.junit.jupiter.api.AfterEach;
import org.junit.jupiter.api.BeforeEach;
import org.junit.jupiter.api.Test;
import org.junit.jupiter.api.io.TempDir;

/** Lists of entities that keep their order (chapter 11.1.43). */
class OrderedListsTest {
    @Entity
    static class Album {
        @Id @GeneratedValue Long id;
        @Version int version;
        @OneToMany(mappedBy = "album", cascade = CascadeType.ALL, orphanRemoval = true) @OrderColumn
        List<Song> songs = new ArrayList<>();
        @ManyToMany @OrderColumn(name = "place")
        List<Song> liked = new ArrayList<>();
        @OneToMany(cascade = CascadeType.ALL) @JoinTable(name = "album_sheet") @OrderColumn
        List<Sheet> sheets = new ArrayList<>();
        String note;
    }

    @Entity
    static class Song {
        @Id @GeneratedValue Long id;
        String name;
        @ManyToOne Album album;
        @ManyToMany(mappedBy = "liked") @OrderColumn
        List<Album> likedBy = new ArrayList<>();

        Song() {}

        Song(Album album, String name) {
            this.album = album;
            this.name = name;
        }
    }

    @Entity
    static class Sheet {
        @Id String code;

        Sheet() {}

        Sheet(String code) {
            this.code = code;
        }
    }

    @Entity(name = "Album") @Table(name = "Album")
    static class BagAlbum {
        @Id @GeneratedValue Long id;
        @Version int version;
        @OneToMany(cascade = CascadeType.ALL) @JoinTable(name = "album_sheet")
        List<Sheet> sheets = new ArrayList<>();
    }

    @Entity(name = "Album") @Table(name = "Album")
    static class ListAlbum {
        @Id @GeneratedValue Long id;
        @Version int version;
        @OneToMany(cascade = CascadeType.ALL) @JoinTable(name = "album_sheet") @OrderColumn
        List<Sheet> sheets = new ArrayList<>();
    }

    @Entity
    static class Box {
        @Id int number;
        @OneToMany(mappedBy = "box") @OrderColumn
        List<Leaf> leaves = new ArrayList<>();
    }

    @Entity
    static class Crate extends Box {
        @ManyToMany @OrderColumn
        List<Sheet> sheets = new ArrayList<>();
    }

    @Entity
    static class Leaf {
        @Id int number;
        @ManyToOne Box box;
    }

    @TempDir Path folder;
    private Factory factory;

    @BeforeEach
    void open() {
        factory = Units.over("karzhoul:memory", Album.class, Song.class, Sheet.class,
            Box.class, Crate.class, Leaf.class);
    }

    @AfterEach
    void close() {
        factory.close();
    }

    private void commit(Consumer<EntityManager> done) {
        commit(factory, done);
    }

    private static void commit(Factory factory, Consumer<EntityManager> done) {
        try (EntityManager manager = factory.createEntityManager()) {
            manager.getTransaction().begin();
            done.accept(manager);
            manager.getTransaction().commit();
        }
    }

    private long album(String... songs) {
        Album album = new Album();
        for (String song : songs) {
            album.songs.add(new Song(album, song));
        }
        commit(manager -> manager.persist(album));
        return album.id;
    }

    private String told(long id, Function<Album, List<Song>> list) {
        try (EntityManager manager = factory.createEntityManager()) {
            return String.join("", list.apply(manager.find(Album.class, id)).stream().map(song -> song.name).toList());
        }
    }

    private String songs(long id) {
        return told(id, album -> album.songs);
    }

    /** How many rows of orders there are. */
    private long rows() {
        Context context = new Context(factory);
        long rows = context.within(() -> {
            long sum = 0;
            Set<String> orders = new TreeSet<>();
            for (EntityModel entity : factory.unit().entities()) {
                entity.relations().forEach(relation -> relation.listOrder().ifPresent(it -> orders.add(it.mappedName())));
            }
            for (String order : orders) {
                int from = context.queue().count();
                String text = "SELECT COUNT(o) FROM " + order + " o";
                context.queue().statement("query", context.manager(), text, List.of(), null, null);
                sum += (Long) context.ask(from)[0].list().get(0);
            }
            return sum;
        });
        context.close();
        return rows;
    }

    @Test
    void anInverseListKeepsItsOrder() {
        long id = album("c", "a", "b");
        assertEquals("cab", songs(id));
        commit(manager -> {
            Album album = manager.find(Album.class, id);
            album.songs.add(1, new Song(album, "x"));
            album.songs.add(0, album.songs.remove(3));
        });
        assertEquals("bcxa", songs(id));
        commit(manager -> manager.find(Album.class, id).songs.remove(1));
        assertEquals("bxa", songs(id));
        commit(manager -> Collections.reverse(manager.find(Album.class, id).songs));
        assertEquals("axb", songs(id));
        assertEquals(1, rows());
        commit(manager -> manager.remove(manager.find(Album.class, id)));
        assertEquals(0, rows());
    }

    @Test
    void manyToManyOnBothSides() {
        long id = album("a", "b", "c");
        long other = album();
        commit(manager -> {
            Album album = manager.find(Album.class, id);
            album.liked.addAll(List.of(album.songs.get(2), album.songs.get(0), album.songs.get(1)));
            Album second = manager.find(Album.class, other);
            second.liked.add(album.songs.get(1));
            album.songs.get(1).likedBy.addAll(List.of(second, album));
        });
        assertEquals("cab", told(id, album -> album.liked));
        commit(manager -> assertEquals(List.of(other, id), manager.find(Album.class, id).songs.get(1).likedBy.stream()
                .map(album -> album.id).toList()));
        commit(manager -> Collections.swap(manager.find(Album.class, id).liked, 0, 1));
        assertEquals("acb", told(id, album -> album.liked));
        assertEquals("abc", songs(id));
    }

    /** The same work on EclipseLink 2.7 over H2, with the same classes, came back as these. */
    @Test
    void asEclipseLinkHasThem() {
        long id = album("c", "a", "b");
        commit(manager -> {
            Album album = manager.find(Album.class, id);
            album.liked.addAll(List.of(album.songs.get(2), album.songs.get(0), album.songs.get(1)));
        });
        assertEquals(List.of("cab", "bca"), List.of(songs(id), told(id, album -> album.liked)));
        commit(manager -> {
            Album album = manager.find(Album.class, id);
            album.songs.add(1, new Song(album, "x"));
            album.songs.add(0, album.songs.remove(3));
            Collections.swap(album.liked, 0, 1);
        });
        assertEquals(List.of("bcxa", "cba"), List.of(songs(id), told(id, album -> album.liked)));
        commit(manager -> {
            Album album = manager.find(Album.class, id);
            album.liked.clear();
            album.songs.remove(1);
        });
        assertEquals(List.of("bxa", ""), List.of(songs(id), told(id, album -> album.liked)));
    }

    @Test
    void aJoinTableWithGivenKeys() {
        Album album = new Album();
        List.of("z\n1", "b\\n", "a").forEach(code -> album.sheets.add(new Sheet(code)));
        commit(manager -> manager.persist(album));
        commit(manager -> assertEquals(List.of("z\n1", "b\\n", "a"),
                manager.find(Album.class, album.id).sheets.stream().map(sheet -> sheet.code).toList()));
    }

    @Test
    void aListThatIsReplaced() {
        long id = album("a", "b", "c");
        commit(manager -> {
            Album album = manager.find(Album.class, id);
            album.liked = new ArrayList<>(List.of(album.songs.get(1), album.songs.get(2), album.songs.get(0)));
        });
        commit(manager -> {
            Album album = manager.find(Album.class, id);
            album.liked = new ArrayList<>(List.of(album.songs.get(2), album.songs.get(1), album.songs.get(0)));
        });
        assertEquals("cba", told(id, album -> album.liked));
    }

    @Test
    void aMergePutsItInOrder() {
        long id = album("a", "b", "c");
        for (boolean isLikedRead : new boolean[] {true, false}) {
            Album[] detached = new Album[1];
            commit(manager -> {
                detached[0] = manager.find(Album.class, id);
                detached[0].songs.forEach(song -> song.likedBy.size());
                detached[0].songs.size();
                if (isLikedRead) {
                    detached[0].liked.size();
                    detached[0].sheets.size();
                }
            });
            Collections.rotate(detached[0].songs, 1);
            detached[0].songs.add(1, new Song(detached[0], "x"));
            String wanted = String.join("", detached[0].songs.stream().map(song -> song.name).toList());
            commit(manager -> {
                Album merged = manager.merge(detached[0]);
                assertEquals(wanted, String.join("", merged.songs.stream().map(song -> song.name).toList()));
            });
            assertEquals(wanted, songs(id));
        }
    }

    @Test
    void refreshesAndRollbacks() {
        long id = album("c", "a", "b");
        try (EntityManager manager = factory.createEntityManager()) {
            manager.getTransaction().begin();
            Album album = manager.find(Album.class, id);
            Collections.reverse(album.songs);
            manager.flush();
            manager.clear();
            assertEquals("b", manager.find(Album.class, id).songs.get(0).name);
            manager.getTransaction().rollback();
            album = manager.find(Album.class, id);
            Collections.reverse(album.songs);
            manager.refresh(album);
            assertEquals("c", album.songs.get(0).name);
        }
        assertEquals("cab", songs(id));
    }

    @Test
    void twoThatPutOneListInOrderMeetAtTheCommit() {
        long id = album("a", "b", "c");
        try (EntityManager first = factory.createEntityManager(); EntityManager second = factory.createEntityManager()) {
            first.getTransaction().begin();
            second.getTransaction().begin();
            Collections.reverse(first.find(Album.class, id).songs);
            Collections.swap(second.find(Album.class, id).songs, 0, 1);
            first.getTransaction().commit();
            RollbackException lost = assertThrows(RollbackException.class, () -> second.getTransaction().commit());
            assertTrue(lost.getCause() instanceof OptimisticLockException, lost.toString());
        }
        assertEquals("cba", songs(id));
    }

    @Test
    void fetchJoinsAndManyOwnersAreInOrder() {
        long one = album("b", "a");
        long two = album("d", "c", "e");
        commit(manager -> {
            List<Album> albums = manager.createQuery("SELECT DISTINCT a FROM Album a LEFT JOIN FETCH a.songs ORDER BY a.id",
                    Album.class).getResultList();
            assertEquals(List.of(one, two), albums.stream().map(album -> album.id).toList());
            assertEquals("ba", albums.get(0).songs.get(0).name + albums.get(0).songs.get(1).name);
            assertEquals("c", albums.get(1).songs.get(1).name);
        });
    }

    @Test
    void aLongListIsInParts() {
        Album album = new Album();
        String end = "x".repeat(1_000);
        for (int i = 0; i < 150; i++) {
            album.sheets.add(new Sheet((i * 7 % 150) + end));
        }
        List<String> codes = new ArrayList<>(album.sheets.stream().map(sheet -> sheet.code).toList());
        commit(manager -> manager.persist(album));
        assertEquals(3, rows());
        commit(manager -> assertEquals(codes, manager.find(Album.class, album.id).sheets.stream().map(it -> it.code).toList()));
        commit(manager -> manager.find(Album.class, album.id).sheets.subList(10, 150).clear());
        assertEquals(1, rows());
        commit(manager -> assertEquals(codes.subList(0, 10),
                manager.find(Album.class, album.id).sheets.stream().map(it -> it.code).toList()));
    }

    @Test
    void anOrderOverAStoreThatHasNone() {
        String url = "karzhoul:" + folder.resolve("albums.db");
        try (Factory before = Units.over(url, BagAlbum.class, Sheet.class)) {
            BagAlbum album = new BagAlbum();
            List.of("a", "b", "c").forEach(code -> album.sheets.add(new Sheet(code)));
            commit(before, manager -> manager.persist(album));
        }
        try (Factory now = Units.over(url, ListAlbum.class, Sheet.class)) {
            commit(now, manager -> Collections.rotate(manager.find(ListAlbum.class, 1L).sheets, 1));
        }
        try (Factory now = Units.over(url, ListAlbum.class, Sheet.class)) {
            commit(now, manager -> assertEquals(List.of("c", "a", "b"),
                    manager.find(ListAlbum.class, 1L).sheets.stream().map(sheet -> sheet.code).toList()));
        }
    }

    @Test
    void randomWork() {
        Random random = new Random(7);
        long id = album("a", "b");
        List<String> wanted = new ArrayList<>(List.of("a", "b"));
        boolean wasLiving = false;
        try (EntityManager living = factory.createEntityManager()) {
            for (int round = 0; round < 120; round++) {
                boolean isLiving = random.nextBoolean();
                EntityManager manager = isLiving ? living : factory.createEntityManager();
                String name = "n" + round;
                manager.getTransaction().begin();
                if (isLiving && !wasLiving) {
                    manager.clear();        // another one wrote since
                }
                wasLiving = isLiving;
                Album album = manager.find(Album.class, id);
                for (int step = random.nextInt(3); step >= 0; step--) {
                    int place = random.nextInt(album.songs.size() + 1);
                    switch (random.nextInt(4)) {
                        case 0 -> {
                            album.songs.add(place, new Song(album, name + step));
                            wanted.add(place, name + step);
                        }
                        case 1 -> {
                            if (place < wanted.size() && wanted.size() > 1) {
                                album.songs.remove(place);
                                wanted.remove(place);
                            }
                        }
                        case 2 -> {
                            Collections.rotate(album.songs, place);
                            Collections.rotate(wanted, place);
                        }
                        default -> manager.flush();
                    }
                }
                manager.getTransaction().commit();
                if (round % 10 == 0) {
                    factory.pool().restartIfIdle();
                }
                assertEquals(String.join("", wanted), songs(id));
                if (!isLiving) {
                    manager.close();
                }
            }
        }
    }

    /** A DELETE of owners takes the orders along: who comes again by the same key has none. */
    @Test
    void aDeletedOwnerLeavesNoOrder() {
        for (String delete : List.of("DELETE FROM Box b WHERE b.number = 1", "DELETE FROM Box b WHERE SQRT(b.number) = 1",
                "DELETE FROM Crate c")) {
            commit(manager -> {
                Crate box = new Crate();
                box.number = 1;
                manager.persist(box);
                for (int number : new int[] {3, 1, 2}) {
                    Leaf leaf = new Leaf();
                    leaf.number = number;
                    leaf.box = box;
                    manager.persist(leaf);
                    box.leaves.add(leaf);
                    box.sheets.add(manager.merge(new Sheet("s" + number)));
                }
            });
            assertEquals(List.of(3, 1, 2), leaves());
            assertEquals(2, rows());
            commit(manager -> {
                manager.createQuery("UPDATE Leaf l SET l.box = NULL").executeUpdate();
                manager.find(Crate.class, 1).sheets.clear();
                manager.flush();
                assertEquals(1, manager.createQuery(delete).executeUpdate());
            });
            assertEquals(0, rows());
            commit(manager -> {
                Crate again = new Crate();
                again.number = 1;
                manager.persist(again);
                manager.createQuery("SELECT l FROM Leaf l", Leaf.class).getResultList().forEach(leaf -> leaf.box = again);
            });
            assertEquals(List.of(1, 2, 3), leaves());
            commit(manager -> {
                manager.createQuery("DELETE FROM Leaf l").executeUpdate();
                manager.remove(manager.find(Box.class, 1));
            });
        }
    }

    private List<Integer> leaves() {
        try (EntityManager manager = factory.createEntityManager()) {
            return manager.find(Box.class, 1).leaves.stream().map(leaf -> leaf.number).toList();
        }
    }
}
