package karzhoul.jpa.query;

import static org.junit.jupiter.api.Assertions.assertEquals;

import java.io.IOException;
import java.nio.charset.StandardCharsets;
import java.util.List;
import karzhoul.jpa.model.Programs;
import org.junit.jupiter.api.Test;

/** What the door knows of the program's language is what the program tells. */
class GrammarTest extends OverShop {
    /** {@code jpa --grammar --language wide >clients/java/src/main/resources/karzhoul/jpa/query/grammar.json} writes it anew. */
    @Test
    void isThatOfTheProgram() throws IOException, InterruptedException {
        Process process = new ProcessBuilder(List.of(Programs.path(), "--grammar", "--language", "wide")).start();
        process.getOutputStream().close();
        String told = new String(process.getInputStream().readAllBytes(), StandardCharsets.UTF_8);
        assertEquals(0, process.waitFor());
        assertEquals(told, Grammar.line());
    }

    @Test
    void variablesMayHaveNamesThatAreKeywordsOfTheProgram() {
        for (String word : Grammar.PROGRAM.keywords()) {
            if (!Tokens.isReserved(word)) {
                assertEquals("[Ada]", rows("SELECT " + word + ".name FROM Person " + word + " WHERE " + word + ".id = 1"), word);
                assertEquals("[Ada]", rows("SELECT p.name AS " + word + " FROM Person p WHERE p.id = 1 ORDER BY " + word), word);
            }
        }
    }

    /** A function whose program has fewer values than are written is the door's. */
    @Test
    void readsKindsLimitsAndBounds() {
        Grammar grammar = new Grammar("{\"language\":\"wide\",\"keywords\":[\"SELECT\",\"OLD\"],\"functions\":[{\"name\":\"OLD\","
                + "\"arguments\":[\"text\",\"integer\"],\"least\":1,\"most\":null,\"result\":\"any\"}],\"aggregates\":[\"MAX\"],"
                + "\"limits\":{\"bytes\":1,\"parentheses\":2,\"variables\":3,\"list\":4}}");
        assertEquals("[1, 2, 3, 4]", List.of(grammar.bytes(), grammar.parentheses(), grammar.variables(), grammar.list()).toString());
        assertEquals(new Grammar.Called(List.of("text", "integer"), Long.MAX_VALUE, "any"), grammar.function("OLD"));
        assertEquals("[text, integer, integer]",
                List.of(grammar.function("OLD").kind(0), grammar.function("OLD").kind(1), grammar.function("OLD").kind(7)).toString());
        assertEquals(List.of(true, false), List.of(grammar.hasAggregate("MAX"), grammar.hasAggregate("AVG")));
        assertEquals(java.util.Set.of("select", "old"), grammar.keywords());
    }
}
