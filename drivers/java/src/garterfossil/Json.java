package garterfossil;

import java.util.ArrayList;
import java.util.HexFormat;
import java.util.LinkedHashMap;
import java.util.List;
import java.util.Map;
import java.util.stream.Collectors;

/**
 * JSON, as far as the file beside a log needs it: maps, lists, texts, whole numbers, true, false
 * and null.
 */
final class Json {
    /**
     * So many maps and lists may stand in one another: the file has three, and each takes some of
     * the thread's stack.
     */
    private static final int DEEPEST = 64;

    private final String text;
    private int at, depth;

    private Json(String text) {
        this.text = text;
    }

    /** What a text says. Throws IllegalArgumentException if it is none of JSON. */
    static Object read(String text) {
        // Where somebody has removed the last line a comma is left.
        Json json = new Json(text.replaceFirst(",\\s*+\\}\\s*+$", "}"));
        Object found = json.value();
        json.next();
        if (json.at < json.text.length()) {
            throw json.wrong();
        }
        return found;
    }

    private IllegalArgumentException wrong() {
        return new IllegalArgumentException("no JSON at character " + at);
    }

    /** The next character that isn't white space; 0 at the end. */
    private char next() {
        while (at < text.length() && Character.isWhitespace(text.charAt(at))) {
            at++;
        }
        return at < text.length() ? text.charAt(at) : 0;
    }

    private boolean takes(char wanted) {
        boolean isSo = next() == wanted;
        at += isSo ? 1 : 0;
        return isSo;
    }

    private void take(char wanted) {
        if (!takes(wanted)) {
            throw wrong();
        }
    }

    private Object value() {
        char first = next();
        if (first != '{' && first != '[') {
            return first == '"' ? string() : word();
        }
        depth++;
        if (depth > DEEPEST) {
            throw new IllegalArgumentException("more than " + DEEPEST + " maps and lists in one another, at character " + at);
        }
        Map<String, Object> map = new LinkedHashMap<>();
        List<Object> list = new ArrayList<>();
        take(first);
        for (boolean isFirst = true; !takes(first == '{' ? '}' : ']'); isFirst = false) {
            if (!isFirst) {
                take(',');
            }
            if (first == '{') {
                next();
                String key = string();
                take(':');
                map.put(key, value());
            } else {
                list.add(value());
            }
        }
        depth--;
        return first == '{' ? map : list;
    }

    private String string() {
        take('"');
        StringBuilder found = new StringBuilder();
        while (at < text.length() && text.charAt(at) != '"') {
            char letter = text.charAt(at++);
            found.append(letter == '\\' ? escaped() : letter);
        }
        take('"');
        return found.toString();
    }

    private char escaped() {
        if (at >= text.length()) {
            throw wrong();
        }
        char letter = text.charAt(at++);
        if (letter == 'u' && at + 4 <= text.length()) {
            at += 4;
            return (char) HexFormat.fromHexDigits(text, at - 4, at);
        }
        if (letter == 'u') {
            throw wrong();
        }
        int place = "ntrbf".indexOf(letter);
        return place < 0 ? letter : "\n\t\r\b\f".charAt(place);
    }

    private Object word() {
        int from = at;
        while (at < text.length() && (Character.isLetterOrDigit(text.charAt(at)) || text.charAt(at) == '-')) {
            at++;
        }
        String word = text.substring(from, at);
        try {
            return switch (word) {
                case "null" -> null;
                case "true", "false" -> Boolean.valueOf(word);
                default -> Long.valueOf(word);
            };
        } catch (NumberFormatException error) {
            throw wrong();
        }
    }

    /** The text of maps, lists, texts, numbers and the rest. */
    static String write(Object value) {
        if (value instanceof Map<?, ?> map) {
            return map.entrySet().stream().map(it -> quoted(it.getKey().toString()) + ": " + write(it.getValue())).collect(Collectors.joining(", ", "{", "}"));
        }
        if (value instanceof List<?> list) {
            return list.stream().map(Json::write).collect(Collectors.joining(", ", "[", "]"));
        }
        return value instanceof String text ? quoted(text) : String.valueOf(value);
    }

    private static String quoted(String text) {
        StringBuilder found = new StringBuilder("\"");
        for (char letter : text.toCharArray()) {
            if (letter == '"' || letter == '\\') {
                found.append('\\').append(letter);
            } else if (letter < ' ' || letter > '~') {
                found.append(String.format("\\u%04x", (int) letter));
            } else {
                found.append(letter);
            }
        }
        return found.append('"').toString();
    }
}
