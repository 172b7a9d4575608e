package karzhoul.jpa.model;

/** The callbacks of an entity: those of its listeners and its own, in the standard's order (chapter 3.5). */
public interface Callbacks {
    /** An event of the life cycle, by the program's names. */
    enum Event { PrePersist, PostPersist, PreRemove, PostRemove, PreUpdate, PostUpdate, PostLoad }

    boolean hears(Event event);

    /** Runs them; what one raises is raised as it is, and the others don't run. */
    void run(Event event, Object instance);
}
