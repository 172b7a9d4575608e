package karzhoul.jpa.context;

import java.util.ArrayList;
import java.util.List;
import karzhoul.jpa.model.Attribute;
import karzhoul.jpa.model.EntityModel;
import karzhoul.jpa.model.Relation;

/**
 * What a reading made of its context. Where it fails nothing half read stays: what is new is let go, proxies are unread
 * as before, and relations lead where they led. The program keeps its objects, and shows them to whoever reads again.
 */
final class Reading {
    /** What an entry that was here before led to. */
    private record Led(Entry owner, Relation relation, Object before) {}

    private final Context context;
    private final List<Entry> fresh = new ArrayList<>();
    private final List<Entry> proxies = new ArrayList<>();
    private final List<Long> standIns = new ArrayList<>();
    private final List<Led> led = new ArrayList<>();

    Reading(Context context) {
        this.context = context;
    }

    /** It was made for this reading. */
    void isNew(Entry entry) {
        entry.coming(true);
        fresh.add(entry);
    }

    /** It was a proxy that nobody had read. */
    void wasProxy(Entry entry) {
        proxies.add(entry);
    }

    /** An instance was made in place of a detached one of this number. */
    void standsIn(long number) {
        standIns.add(number);
    }

    /** A relation is about to lead to something else. */
    void leads(Entry owner, Relation relation) {
        if (!owner.isComing()) {
            led.add(new Led(owner, relation, owner.relations[relation.place()]));
        }
    }

    /**
     * All is read.
     *
     * @param around the reading whose callback did this one, which goes with it; or null
     */
    void isDone(Reading around) {
        if (around == null) {
            fresh.forEach(entry -> entry.coming(false));
            return;
        }
        around.fresh.addAll(fresh);
        around.proxies.addAll(proxies);
        around.standIns.addAll(standIns);
        around.led.addAll(led);
    }

    /** Nothing of it was read, as far as setters let that be; a proxy whose setters don't is let go. */
    void takeBack(Throwable failed) {
        for (int i = led.size() - 1; i >= 0; i--) {
            try {
                leadAsBefore(led.get(i));
            } catch (RuntimeException e) {
                failed.addSuppressed(e);
            }
        }
        for (Entry entry : fresh) {
            entry.coming(false);
            context.identities().remove(entry);
            entry.letGo();
        }
        standIns.forEach(context::unlose);
        for (Entry proxy : proxies) {
            try {
                unread(proxy);
            } catch (RuntimeException e) {
                failed.addSuppressed(e);
                context.identities().remove(proxy);
                proxy.letGo();
            }
        }
    }

    @SuppressWarnings("unchecked")
    private void leadAsBefore(Led each) {
        Entry owner = each.owner();
        Relation relation = each.relation();
        owner.relations[relation.place()] = each.before();
        if (!relation.isMany()) {
            relation.set(owner.instance(), each.before() == null ? null : ((Entry) each.before()).instance());
        } else if (!owner.isUnread(relation)) {
            Members.give(owner, relation, (List<Entry>) each.before());
        } else if (!owner.unread(relation).isChanged()) {
            owner.unread(relation).forget();
        }
    }

    /** Its fields are those of a new instance again, so that what is written to them is told from that. */
    private void unread(Entry proxy) {
        EntityModel model = proxy.model();
        Object instance = proxy.instance();
        Object blank = model.newInstance();
        proxy.forgetTold();
        proxy.blank(Proxies.asleep(instance, () -> {
            for (Attribute attribute : model.attributes()) {
                if (attribute.role() != Attribute.Role.KEY) {
                    attribute.set(instance, attribute.get(blank));
                }
            }
            for (Relation relation : model.relations()) {
                relation.hold(instance, relation.held(blank));
            }
            return Blank.of(model, instance);
        }));
        proxy.hollow(true);
        context.unreadProxies().again(proxy);
    }
}
