package garterfossil;

import static org.junit.Assert.assertEquals;
import static org.junit.Assert.assertThrows;
import static org.junit.Assert.assertTrue;

import java.util.List;
import java.util.Map;
import org.junit.Test;

/** JSON as RFC 8259 has it, of whole numbers. */
public class JsonTest {
    @Test
    public void whatItSays() {
        assertEquals(Map.of("a", List.of(1L, -2L, true), "b\"", "x\u00e9\n"), Json.read(" {\"a\" : [1, -2,true],\n\"b\\\"\":\"x\\u00e9\\n\"}\n"));
        // The last line was removed.
        assertEquals(Map.of("a", 1L), Json.read("{\n \"a\": 1,\n}\n"));
        assertEquals("{\"a\": [1, \"b\\\"\\u00e9\"]}", Json.write(Map.of("a", List.of(1L, "b\"\u00e9"))));
    }

    @Test
    public void whatIsNone() {
        for (String text : List.of("", "{", "[1", "{\"a\" 1}", "[1 2]", "\"a", "nul", "1.5", "{} x", "\"\\u00", "{}\0x", "\"\\u-001\"",
            "[1,]", "{\"a\": {\"b\": 1,}}")) {
            assertThrows(text, IllegalArgumentException.class, () -> Json.read(text));
        }
    }

    @Test
    public void whatIsNestedTooDeeply() {
        assertEquals(Map.of("a", List.of(List.of())), Json.read("{\"a\": [[]]}"));
        Json.read("[".repeat(64) + "]".repeat(64));
        for (String text : List.of("[".repeat(65) + "]".repeat(65), "[".repeat(1_000_000), "{\"a\":".repeat(1_000_000))) {
            IllegalArgumentException error = assertThrows(IllegalArgumentException.class, () -> Json.read(text));
            assertTrue(error.getMessage(), error.getMessage().contains("more than 64 maps and lists in one another"));
        }
        // What stands beside one another isn't counted.
        assertEquals(1000, ((List<?>) Json.read("[" + "[], ".repeat(999) + "{}]")).size());
    }
}
