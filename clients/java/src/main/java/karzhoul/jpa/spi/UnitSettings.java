package karzhoul.jpa.spi;

import java.time.Duration;
import java.util.Map;
import java.util.Optional;
import java.util.function.Consumer;
import karzhoul.jpa.model.UnitModel;

/**
 * A persistence unit, read and found to be well: what a factory is made of.
 *
 * @param name the unit's name
 * @param unit its entities
 * @param url {@code karzhoul:FILE}, {@code karzhoul:memory}, or the address of a server
 * @param program the executable that serves the store; null where a server does
 * @param poolWait how long an entity manager waits for one of the program's sixteen
 * @param log takes each call with its answer, where the unit asks for it
 * @param properties all properties, those of the call over those of the unit (chapter 8.2.1.9)
 */
public record UnitSettings(
        String name, UnitModel unit, String url, String program, Duration poolWait, Optional<Consumer<String>> log,
        Map<String, Object> properties) {}
