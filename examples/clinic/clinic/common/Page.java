package clinic.common;

import java.util.List;

/** Some of the rows that a search has found: those of a page, counted from 1, and how many there are in all. */
public record Page<T>(List<T> rows, int number, long total) {
    public static final int ROWS = 20;

    /** At which row a page begins, counted from 0. */
    public static int first(int number) {
        return (number - 1) * ROWS;
    }

    public long pages() {
        return Math.max(1, (total + ROWS - 1) / ROWS);
    }
}
