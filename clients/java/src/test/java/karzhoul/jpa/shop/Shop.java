package karzhoul.jpa.shop;

import java.time.Duration;
import java.util.List;
import java.util.Map;
import java.util.Optional;
import java.util.function.Consumer;
import karzhoul.jpa.context.Factory;
import karzhoul.jpa.model.Reader;
import karzhoul.jpa.spi.UnitSettings;

/** Opens units of the shop's classes. */
public final class Shop {
    /** The classes of the shop. */
    public static final List<Class<?>> CLASSES = List.of(
        Address.class, Base.class, Car.class, Circle.class, Depot.class, Holder.class, Motor.class,
        Order.class, Person.class, Place.class, Profile.class, Sealed.class, Tag.class, Team.class, Vip.class);

    private Shop() {}

    /** The program that tests use. */
    public static String program() {
        String program = System.getenv("KARZHOUL_PROGRAM");
        return program == null ? System.getProperty("karzhoul.program", "jpa") : program;
    }

    /** A unit of the shop in memory. */
    public static Factory open() {
        return open("karzhoul:memory", CLASSES, Duration.ofSeconds(20), null);
    }

    /** A unit of these classes. */
    public static Factory open(String url, List<Class<?>> classes, Duration wait, Consumer<String> log) {
        Consumer<String> to = log != null ? log : Boolean.getBoolean("karzhoul.echo") ? System.err::println : null;
        return new Factory(new UnitSettings("shop", Reader.read("shop", classes), url, program(), wait,
            Optional.ofNullable(to), Map.of()));
    }
}
