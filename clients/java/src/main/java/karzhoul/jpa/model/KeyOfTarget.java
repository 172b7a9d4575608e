package karzhoul.jpa.model;

/** A part of a key that is read off the entity to which a relation leads; setting the relation sets it. */
record KeyOfTarget(Relation relation, Attribute part) implements Place {
    @Override
    public Object get(Object instance) {
        Object target = relation.get(instance);
        return target == null ? null : part.get(target);
    }

    @Override
    public void set(Object instance, Object value) {
        // The relation holds it.
    }
}
