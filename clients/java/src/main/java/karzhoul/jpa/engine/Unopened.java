package karzhoul.jpa.engine;

import java.io.IOException;
import java.io.InputStream;
import java.nio.charset.StandardCharsets;
import java.nio.file.DirectoryStream;
import java.nio.file.Files;
import java.nio.file.Path;
import java.nio.file.attribute.BasicFileAttributes;
import java.util.ArrayList;
import java.util.Arrays;
import java.util.List;

/** Why the program can't open a store, told from the store's file as far as that can be seen. */
final class Unopened {
    private static final String LOCKS = "/proc/locks";
    private static final byte[] HEAD = "SQLite format 3\0".getBytes(StandardCharsets.US_ASCII);
    private static final String UNKNOWN = "the disk is full, or it is no store of this program's";

    private final Path store;

    private Unopened(Path store) {
        this.store = store;
    }

    /** What is in the way of opening it. */
    static String why(Path store) {
        Unopened unopened = new Unopened(store.toAbsolutePath());
        String place = unopened.ofPlace();
        return place == null ? unopened.ofContent() : place;
    }

    private String ofPlace() {
        Path folder = store.getParent();
        if (folder == null || Files.isDirectory(store)) {
            return "it is a folder, and a store is a file";
        } else if (!Files.isDirectory(folder)) {
            return "there is no folder " + folder;
        } else if (!Files.isWritable(folder)) {
            return "its folder " + folder + ", where its log is to stand, may not be written by this process";
        }
        for (Path file : List.of(store, store.resolveSibling(store.getFileName() + "-wal"))) {
            if (Files.exists(file) && !(Files.isReadable(file) && Files.isWritable(file))) {
                return (file == store ? "it" : "its log " + file) + " may not be read and written by this process";
            }
        }
        return null;
    }

    private String ofContent() {
        try {
            if (isLocked()) {
                List<String> holders = holders();
                return "another process has it open, and one at a time has a store"
                    + (holders.isEmpty() ? "" : ": " + String.join(", ", holders));
            }
            try (InputStream file = Files.newInputStream(store)) {
                byte[] head = file.readNBytes(HEAD.length);
                return head.length == 0 || Arrays.equals(head, HEAD) ? UNKNOWN : "it is no database of SQLite";
            }
        } catch (IOException unseen) {
            return "another process has it open, " + UNKNOWN;
        }
    }

    /** Whether the system lists a lock of this file. */
    private boolean isLocked() throws IOException {
        String inode = ":" + Files.getAttribute(store, "unix:ino");
        return Files.readAllLines(Path.of(LOCKS)).stream().map(line -> line.trim().split("\\s+"))
            .anyMatch(words -> words.length > 5 && words[5].endsWith(inode));
    }

    /** The processes that have it open, of those that may be looked at; a lock tells no process. */
    private List<String> holders() throws IOException {
        Object key = Files.readAttributes(store, BasicFileAttributes.class).fileKey();
        List<String> holders = new ArrayList<>();
        for (ProcessHandle process : ProcessHandle.allProcesses().toList()) {
            if (hasOpen(process, key)) {
                holders.add(words(process));
            }
        }
        return holders;
    }

    private static boolean hasOpen(ProcessHandle process, Object key) {
        try (DirectoryStream<Path> files = Files.newDirectoryStream(Path.of("/proc/" + process.pid() + "/fd"))) {
            for (Path file : files) {
                if (Files.exists(file) && Files.readAttributes(file, BasicFileAttributes.class).fileKey().equals(key)) {
                    return true;
                }
            }
        } catch (IOException unseen) {
            // It is another user's, or has ended.
        }
        return false;
    }

    private static String words(ProcessHandle process) {
        String starter = process.parent().filter(parent -> parent.pid() > 1).map(parent -> parent.equals(ProcessHandle.current())
            ? ", which this process started" : ", started by " + name(parent) + " (process " + parent.pid() + ")").orElse("");
        return name(process) + " (process " + process.pid() + ")" + starter;
    }

    private static String name(ProcessHandle process) {
        try {
            return Files.readString(Path.of("/proc/" + process.pid() + "/comm")).strip();
        } catch (IOException unseen) {
            return "a program";
        }
    }
}
