package karzhoul.jpa.context;

import jakarta.persistence.FlushModeType;
import jakarta.persistence.LockModeType;
import java.util.ArrayList;
import java.util.HashMap;
import java.util.List;
import java.util.Map;
import karzhoul.jpa.engine.Engine;
import karzhoul.jpa.engine.Reply;
import karzhoul.jpa.engine.Shown;
import karzhoul.jpa.graph.RootGraph;
import karzhoul.jpa.model.EntityModel;
import karzhoul.jpa.model.ListOrder;
import karzhoul.jpa.model.Relation;
import karzhoul.jpa.model.UnitModel;
import karzhoul.jpa.query.Asking;

/** What queries need of an entity manager (chapter 3.10). */
final class Questions implements Asking {
    private final Manager manager;
    private final Context context;

    Questions(Manager manager, Context context) {
        this.manager = manager;
        this.context = context;
    }

    @Override
    public UnitModel unit() {
        return context.unit();
    }

    @Override
    public void needOpen() {
        manager.needOpen();
    }

    @Override
    public void needTransaction() {
        context.needTransaction();
    }

    @Override
    public FlushModeType flushMode() {
        return manager.getFlushMode();
    }

    @Override
    public void lock(Object instance, LockModeType mode) {
        manager.lock(instance, mode);
    }

    @Override
    public <E extends RuntimeException> E marked(E raised) {
        return context.marked(raised);
    }

    @Override
    public void flushBefore(FlushModeType mode) {
        if (context.isActive() && mode == FlushModeType.AUTO) {
            manager.flushNow();
        }
    }

    @Override
    public List<Object[]> rows(String text, List<Parameter> parameters, Integer first, Integer max, boolean findsOne) {
        return context.within(() -> {
            long[] next = new long[1];
            Reply[] replies = ask("query", text, parameters, first, max, !findsOne ? null : (lines, number) -> {
                next[0] = number;
                lines.values(next, 0, 1);
            });
            List<Object[]> rows = rows(replies[0].list());
            List<Object> refs = refs(rows);
            Map<Object, Entry> entries = entries(refs, next[0],
                findsOne && !replies[1].isRefused() ? (Shown) replies[1].list().get(0) : null);
            if (!entries.isEmpty()) {
                rows.forEach(row -> replace(row, entries));
            }
            return rows;
        });
    }

    private static List<Object[]> rows(List<Object> told) {
        List<Object[]> rows = new ArrayList<>(told.size());
        for (Object row : told) {
            rows.add(row instanceof List<?> many ? many.toArray() : new Object[] {row});
        }
        return rows;
    }

    @Override
    public List<Object[]> unknown(EntityModel entity, List<Object> key) {
        if (context.identities().of(entity, key) != null) {
            return null;
        }
        Entry found = context.within(() -> new Fill(context).found(entity, key));
        return found == null ? List.of() : List.<Object[]>of(new Object[] {new Asking.Ref(found.number(), found)});
    }

    private static List<Object> refs(List<Object[]> rows) {
        List<Object> refs = new ArrayList<>();
        for (Object[] row : rows) {
            for (Object item : row) {
                if (item instanceof karzhoul.jpa.engine.Ref) {
                    refs.add(item);
                }
            }
        }
        return refs;
    }

    private Map<Object, Entry> entries(List<Object> refs, long number, Shown shown) {
        if (refs.isEmpty()) {
            return Map.of();
        }
        Map<Object, Entry> entries = new HashMap<>();
        List<Entry> found = new Fill(context).entries(refs, number, shown);
        for (int i = 0; i < refs.size(); i++) {
            entries.put(refs.get(i), found.get(i));
        }
        return entries;
    }

    private static void replace(Object[] items, Map<Object, Entry> entries) {
        for (int i = 0; i < items.length; i++) {
            if (items[i] instanceof karzhoul.jpa.engine.Ref ref) {
                items[i] = new Asking.Ref(ref.number(), entries.get(ref));
            }
        }
    }

    @Override
    public int update(String text, List<Parameter> parameters) {
        context.needTransaction();
        context.storing();
        return context.within(() -> ((Long) ask("executeUpdate", text, parameters, null, null, null)[0].ok()).intValue());
    }

    @Override
    public void ordersGone(ListOrder order, List<String> owners) {
        try {
            context.within(() -> {
                context.listOrders().gone(order, owners);
                context.hiddenRows().flush();
                return null;
            });
        } catch (RuntimeException e) {
            throw context.marked(e);
        }
    }

    @Override
    public void moved(List<Moved> all) {
        try {
            context.within(() -> {
                all.forEach(it -> context.uniques().changed(it.unique(), it.key(), it.before(), it.after()));
                context.uniques().settle();
                context.hiddenRows().flush();
                return null;
            });
        } catch (RuntimeException e) {
            throw context.marked(e);
        }
    }

    private Reply[] ask(String call, String text, List<Parameter> parameters, Integer first, Integer max,
        Engine.Tail tail) {
        List<Object> pairs = new ArrayList<>();
        for (Parameter parameter : parameters) {
            pairs.add(parameter.name());
            pairs.add(parameter.value() instanceof List<?> list ? list.stream().map(this::told).toList()
                : told(parameter.value()));
        }
        int from = context.queue().count();
        context.queue().statement(call, context.manager(), text, pairs, first, max).about("\"" + text + "\"");
        return context.ask(from, tail);
    }

    private Object told(Object value) {
        return value instanceof Asking.Ref ref ? new karzhoul.jpa.engine.Ref(number((Entry) ref.held())) : value;
    }

    private long number(Entry entry) {
        if (entry.number() == 0) {
            new Targets(context).number(entry);
        }
        return entry.number();
    }

    @Override
    public List<Object> found(EntityModel entity, List<Object> keys) {
        return context.within(() -> new Fetching(context).found(entity, keys));
    }

    @Override
    public boolean isManaged(Object instance) {
        Entry entry = context.entryOf(instance);
        return entry != null && entry.isManaged();
    }

    @Override
    public List<Object> instances(List<Asking.Ref> refs) {
        List<Object> instances = new ArrayList<>(refs.size());
        for (Asking.Ref ref : refs) {
            instances.add(ref == null ? null : ((Entry) ref.held()).instance());
        }
        return instances;
    }

    @Override
    public Asking.Ref refOf(Object instance) {
        var model = context.modelOf(instance);
        Entry known = context.entryOf(instance);
        Entry entry = known != null ? known
            : context.within(() -> new Targets(context).foreign(model, instance, false));
        if (entry == null || entry.state() == Entry.State.NEW) {
            throw context.marked(new IllegalArgumentException("a new " + model.name()
                + ", which isn't stored, can't be a parameter: persist it first"));
        }
        return new Asking.Ref(entry.number(), entry);
    }

    @Override
    public List<Object> fetch(List<Object> instances, Relation relation) {
        return context.within(() -> new Fetching(context).relation(instances, relation));
    }

    @Override
    public RootGraph<?> graph(Object given) {
        return context.factory().graphs().given(given);
    }

    @Override
    public void read(List<Object> instances, RootGraph<?> graph) {
        context.within(() -> {
            new Fetching(context).graph(instances, graph);
            return null;
        });
    }
}
