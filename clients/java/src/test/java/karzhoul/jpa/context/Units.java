package karzhoul.jpa.context;

import java.time.Duration;
import java.util.List;
import java.util.Map;
import java.util.Optional;
import karzhoul.jpa.model.EntityModel;
import karzhoul.jpa.model.Reader;
import karzhoul.jpa.shop.Shop;
import karzhoul.jpa.spi.UnitSettings;

/** Units of a test's own classes. */
final class Units {
    private Units() {}

    static Factory over(String url, Class<?>... classes) {
        return over(url, Duration.ofSeconds(20), classes);
    }

    static Factory over(String url, Duration wait, Class<?>... classes) {
        return new Factory(new UnitSettings("tried", Reader.read("tried", List.of(classes)), url, Shop.program(),
            wait, Optional.empty(), Map.of()));
    }

    /** How many rows of collections of values the store has, which no query of an application finds. */
    static long rowsOfElements(Factory factory) {
        Context context = new Context(factory);
        long rows = context.within(() -> {
            long sum = 0;
            for (EntityModel hidden : factory.unit().hidden()) {
                String text = "SELECT COUNT(r) FROM " + hidden.mappedName() + " r";
                int from = context.queue().count();
                context.queue().statement("query", context.manager(), text, List.of(), null, null).about(text);
                sum += (Long) context.ask(from)[0].list().get(0);
            }
            return sum;
        });
        context.close();
        return rows;
    }
}
