package karzhoul.jpa.model;

import java.lang.invoke.MethodHandle;
import java.lang.reflect.Array;
import java.util.ArrayList;
import java.util.List;

/** The way from an instance to a member of it, or of an embeddable in it (chapter 2.5). */
final class Way implements Place {
    /** An embeddable on the way: where it stands, and its constructor. */
    private record Step(Accessor accessor, MethodHandle constructor) {}

    private final List<Step> steps;
    private final Accessor last;
    private final Object zero;

    private Way(List<Step> steps, Accessor last, Object zero) {
        this.steps = steps;
        this.last = last;
        this.zero = zero;
    }

    /** The way to a member of the instance itself. */
    static Way to(Member member) {
        return new Way(List.of(), member.accessor(), zero(member.javaType()));
    }

    /** The way to a member of the embeddable to which this way leads, which has this constructor. */
    Way then(MethodHandle constructor, Member member) {
        List<Step> longer = new ArrayList<>(steps);
        longer.add(new Step(last, constructor));
        return new Way(List.copyOf(longer), member.accessor(), zero(member.javaType()));
    }

    @Override
    public Object get(Object instance) {
        Object at = instance;
        for (int i = 0; i < steps.size() && at != null; i++) {
            at = steps.get(i).accessor().get(at);
        }
        return at == null ? null : last.get(at);
    }

    @Override
    public boolean isOfFields() {
        return !last.isProperty() && steps.stream().noneMatch(step -> step.accessor().isProperty());
    }

    @Override
    public MethodHandle reader() {
        return steps.isEmpty() ? last.reader() : null;
    }

    @Override
    public Object holder(Object instance) {
        Object at = steps.isEmpty() ? null : instance;
        for (int i = 0; i < steps.size() && at != null; i++) {
            at = steps.get(i).accessor().isProperty() ? null : steps.get(i).accessor().get(at);
        }
        return at;
    }

    @Override
    public void set(Object instance, Object value) {
        set(instance, 0, value);
    }

    /** Getters may answer copies: so what a property holds is set again once its part is. */
    private void set(Object at, int depth, Object value) {
        if (depth == steps.size()) {
            last.set(at, value == null ? zero : value);
            return;
        }
        Step step = steps.get(depth);
        Object inner = step.accessor().get(at);
        boolean isNew = inner == null;
        if (isNew) {
            if (value == null) {
                return;
            }
            inner = Accessor.make(step.constructor());
        }
        set(inner, depth + 1, value);
        if (isNew || step.accessor().isProperty()) {
            step.accessor().set(at, inner);
        }
    }

    private static Object zero(Class<?> type) {
        return type.isPrimitive() ? Array.get(Array.newInstance(type, 1), 0) : null;
    }
}
