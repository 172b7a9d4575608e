package clinic.web;

import java.util.Collection;
import java.util.function.Function;
import java.util.stream.Collectors;

/** A piece of HTML. */
public record Html(String text) {
    public static final Html NOTHING = new Html("");

    /** A template, in which each {@code {}} is the next value: as it is where it is HTML, and else its escaped text. */
    public static Html of(String template, Object... values) {
        var html = new StringBuilder();
        var from = 0;
        for (var value : values) {
            var to = template.indexOf("{}", from);
            html.append(template, from, to).append(value instanceof Html piece ? piece.text : escaped(value));
            from = to + 2;
        }
        return new Html(html.append(template.substring(from)).toString());
    }

    /** A piece for each of the values. */
    public static <T> Html each(Collection<T> values, Function<T, Html> piece) {
        return new Html(values.stream().map(piece).map(Html::text).collect(Collectors.joining("\n")));
    }

    private static String escaped(Object value) {
        return value == null ? "" : value.toString().replace("&", "&amp;").replace("<", "&lt;").replace(">", "&gt;")
                .replace("\"", "&quot;").replace("'", "&#39;");
    }
}
