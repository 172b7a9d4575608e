package karzhoul.jpa.engine;

import static org.junit.jupiter.api.Assertions.assertEquals;
import static org.junit.jupiter.api.Assertions.assertThrows;

import java.util.Arrays;
import java.util.List;
import org.junit.jupiter.api.Test;

/** Call lines, as docs/CALLS.md has them. */
class LinesTest {
    @Test
    void eachCall() {
        Lines lines = new Lines().createEntityManager().begin(1).persist(1, 22).set(3, "name", "A\"\\\n\u0001é€😀")
            .set(3, "number", Long.MIN_VALUE).set(3, "number", 1_234_567_890L).set(3, "bytes", new byte[] {10, -1})
            .link(3, "person", 0).link(3, "person", 4).add(1, "orders", 2).takeOut(1, "orders", 2)
            .find(1, "Person", List.of(1L, "x")).values(new long[] {9, 10, 11}, 1, 3).lock(1, 2, "READ").pending(1)
            .statement("query", 1, "SELECT", List.of("n", 5L, 1, new Ref(2), "l", Arrays.asList(1L, null, new Ref(3))), 3, null)
            .statement("query", 1, "SELECT", List.of("l", List.of()), null, 1).restart();
        assertEquals("""
            {"call":"createEntityManager"}
            {"call":"begin","em":1}
            {"call":"persist","em":1,"object":22}
            {"call":"set","object":3,"name":"name","value":"A\\"\\\\\\u000a\\u0001é€😀"}
            {"call":"set","object":3,"name":"number","value":-9223372036854775808}
            {"call":"set","object":3,"name":"number","value":1234567890}
            {"call":"set","object":3,"name":"bytes","value":{"hex":"0aff"}}
            {"call":"set","object":3,"name":"person","value":null}
            {"call":"set","object":3,"name":"person","value":{"object":4}}
            {"call":"add","object":1,"name":"orders","member":2}
            {"call":"takeOut","object":1,"name":"orders","member":2}
            {"call":"find","em":1,"entity":"Person","key":[1,"x"]}
            {"call":"values","objects":[10,11]}
            {"call":"lock","em":1,"object":2,"mode":"READ"}
            {"call":"pending","em":1}
            {"call":"query","em":1,"text":"SELECT","params":{"n":5,"1":{"object":2},"l":[1,null,{"object":3}]},"first":3}
            {"call":"query","em":1,"text":"SELECT","params":{"l":[]},"max":1}
            {"call":"restart"}
            """, lines.toString());
    }

    @Test
    void halfASurrogatePairLeavesNothingBehind() {
        Lines lines = new Lines().begin(1);
        for (String half : List.of("a\ud800", "\udc00b", "\ud800\ud800\udc00")) {
            assertThrows(IllegalArgumentException.class, () -> lines.set(1, "name", half));
        }
        lines.commit(1);
        assertEquals("{\"call\":\"begin\",\"em\":1}\n{\"call\":\"commit\",\"em\":1}\n", lines.toString());
        assertEquals(2, lines.count());
    }

    @Test
    void cuttingAndAdding() {
        Lines lines = new Lines().begin(1).flush(1).commit(1);
        lines.cut(1);
        lines.addAll(new Lines().rollback(2).about("b"));
        assertEquals("{\"call\":\"begin\",\"em\":1}\n{\"call\":\"rollback\",\"em\":2}\n", lines.toString());
        assertEquals("b", lines.about(1));
    }
}
