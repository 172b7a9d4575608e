package karzhoul.jpa.engine;

import karzhoul.jpa.model.Callbacks;

/** What a reply tells of an object. */
public record Event(Callbacks.Event kind, long number) {}
