package karzhoul.jpa.engine;

import static org.junit.jupiter.api.Assertions.assertArrayEquals;
import static org.junit.jupiter.api.Assertions.assertEquals;
import static org.junit.jupiter.api.Assertions.assertNull;
import static org.junit.jupiter.api.Assertions.assertSame;
import static org.junit.jupiter.api.Assertions.assertThrows;
import static org.junit.jupiter.api.Assertions.assertTrue;

import java.io.ByteArrayInputStream;
import java.io.EOFException;
import java.io.IOException;
import java.io.InputStream;
import java.nio.charset.StandardCharsets;
import java.util.List;
import karzhoul.jpa.model.Callbacks;
import org.junit.jupiter.api.Test;

/** Reply lines, as docs/CALLS.md has them, read by hand. */
class RepliesTest {
    private static Reply read(String line) throws IOException {
        return reading(line + "\n").next(null);
    }

    private static Replies reading(String text) {
        return new Replies(new ByteArrayInputStream(text.getBytes(StandardCharsets.UTF_8)));
    }

    @Test
    void valuesOfEachSort() throws IOException {
        assertNull(read("{\"events\":[],\"ok\":null}").ok());
        assertEquals(true, read("{\"events\":[],\"ok\":true}").ok());
        assertEquals(false, read("{\"events\":[],\"ok\":false}").ok());
        assertEquals(0L, read("{\"events\":[],\"ok\":0}").ok());
        assertEquals(Long.MAX_VALUE, read("{\"events\":[],\"ok\":9223372036854775807}").ok());
        assertEquals(Long.MIN_VALUE, read("{\"events\":[],\"ok\":-9223372036854775808}").ok());
        assertEquals("", read("{\"events\":[],\"ok\":\"\"}").ok());
        assertEquals("é€😀", read("{\"events\":[],\"ok\":\"é€😀\"}").ok());
        assertEquals("a\"\\\n\t\r\b\f/\u0001é",
            read("{\"events\":[],\"ok\":\"a\\\"\\\\\\n\\t\\r\\b\\f/\\u0001é\"}").ok());
        assertArrayEquals(new byte[] {10, -1}, (byte[]) read("{\"events\":[],\"ok\":{\"hex\":\"0aff\"}}").ok());
        assertArrayEquals(new byte[0], (byte[]) read("{\"events\":[],\"ok\":{\"hex\":\"\"}}").ok());
        assertEquals(new Ref(7), read("{\"events\":[],\"ok\":{\"object\":7}}").ok());
        assertEquals(List.of(), read("{\"events\":[],\"ok\":[]}").ok());
        assertEquals(List.of(1L, List.of("a", new Ref(2))),
            read("{\"events\":[],\"ok\":[1,[\"a\",{\"object\":2}]]}").ok());
    }

    @Test
    void whatValuesShows() throws IOException {
        Shown shown = (Shown) read("{\"events\":[],\"ok\":[{\"entity\":\"Company\",\"relations\":[null,{\"object\":3},"
            + "{\"key\":[5,\"a\"]},{\"unread\":true},[{\"object\":4}],[]],"
            + "\"values\":[7,null,\"Ada\",{\"hex\":\"0a\"}]}]}")
            .list().get(0);
        assertEquals("Company", shown.entity());
        assertNull(shown.relations()[0]);
        assertEquals(new Ref(3), shown.relations()[1]);
        assertEquals(new Shown.KeyOf(List.of(5L, "a")), shown.relations()[2]);
        assertSame(Shown.UNREAD, shown.relations()[3]);
        assertEquals(List.of(new Ref(4)), shown.relations()[4]);
        assertEquals(List.of(), shown.relations()[5]);
        assertEquals(7L, shown.values()[0]);
        assertArrayEquals(new byte[] {10}, (byte[]) shown.values()[3]);
    }

    @Test
    void eventsAndRefusals() throws IOException {
        Reply loaded = read("{\"events\":[[\"PostLoad\",3],[\"PrePersist\",4,\"a\",\"b\"]],\"ok\":null}");
        assertEquals(List.of(new Event(Callbacks.Event.PostLoad, 3), new Event(Callbacks.Event.PrePersist, 4)),
            loaded.events());
        Reply refused =
            read("{\"error\":{\"name\":\"Rollback\",\"no\":14,\"why\":\"Persistence(null)\"},\"events\":[]}");
        assertTrue(refused.isRefused());
        assertEquals("Rollback(Persistence(null))", Refusals.words(refused));
        assertEquals("NoSuchObject",
            Refusals.words(read("{\"error\":{\"name\":\"NoSuchObject\",\"no\":5},\"events\":[]}")));
    }

    @Test
    void objectsAreCountedButThoseOfRefusedCalls() throws IOException {
        Replies replies = reading("{\"events\":[[\"PostLoad\",3]],\"ok\":{\"object\":3}}\n"
            + "{\"error\":{\"name\":\"Listener\",\"no\":13,\"why\":\"f\"},\"events\":[[\"PostLoad\",9]]}\n"
            + "{\"events\":[],\"ok\":{\"object\":5}}\n");
        replies.next(null);
        assertEquals(3, replies.made());
        replies.next(null);
        assertEquals(3, replies.made());
        replies.next(null);
        assertEquals(5, replies.made());
    }

    @Test
    void linesThatComeInPieces() throws IOException {
        byte[] all = ("{\"events\":[],\"ok\":\"" + "é".repeat(100_000) + "\"}\n{\"events\":[],\"ok\":1}\n")
            .getBytes(StandardCharsets.UTF_8);
        InputStream slow = new ByteArrayInputStream(all) {
            @Override
            public synchronized int read(byte[] b, int off, int len) {
                return super.read(b, off, Math.min(len, 777));
            }
        };
        Replies replies = new Replies(slow);
        assertEquals("é".repeat(100_000), replies.next(null).ok());
        assertEquals(1L, replies.next(null).ok());
        assertThrows(EOFException.class, () -> replies.next(null));
    }
}
