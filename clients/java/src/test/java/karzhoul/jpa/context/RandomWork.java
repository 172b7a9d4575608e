package karzhoul.jpa.context;

import jakarta.persistence.EntityManager;
import jakarta.persistence.PersistenceException;
import jakarta.persistence.RollbackException;
import java.util.ArrayList;
import java.util.List;
import java.util.Map;
import java.util.Random;
import java.util.TreeMap;
import java.util.UUID;
import karzhoul.jpa.shop.Address;
import karzhoul.jpa.shop.Audit;
import karzhoul.jpa.shop.Depot;
import karzhoul.jpa.shop.Order;
import karzhoul.jpa.shop.Person;
import karzhoul.jpa.shop.Place;
import karzhoul.jpa.shop.Tag;
import karzhoul.jpa.shop.Team;
import karzhoul.jpa.shop.Vip;

/**
 * Random work in transactions: what is reloaded after a commit must be what the instances had. What others commit
 * between, and ends of runs, may refuse a commit as stale, but never change what a commit has stored.
 */
final class RandomWork {
    private static final int MOST_PERSONS = 6;

    private final Factory factory;
    private final Random random;
    private final boolean hasOthers;
    private final boolean keepsManager;
    private final List<Long> ids = new ArrayList<>();
    private final List<String> did = new ArrayList<>();
    private long number;
    private boolean hasKills;
    private EntityManager manager;
    private UUID teamId;
    private Team teamSeen;

    int commits;
    int others;
    int restarts;
    int kills;
    final List<String> wrong = new ArrayList<>();
    final Map<String, Integer> refused = new TreeMap<>();

    RandomWork(Factory factory, long seed, boolean hasOthers, boolean keepsManager) {
        this.factory = factory;
        random = new Random(seed);
        this.hasOthers = hasOthers;
        this.keepsManager = keepsManager;
    }

    /** From now on the program is killed now and then, between two operations. */
    RandomWork kills() {
        hasKills = true;
        return this;
    }

    RandomWork rounds(int rounds) {
        for (int round = 0; round < rounds; round++) {
            if (manager == null) {
                manager = factory.createEntityManager();
            }
            round(round);
            if (!keepsManager || random.nextInt(4) == 0) {
                manager.close();
                manager = null;
            }
            Audit.told();
            if (random.nextInt(3) == 0 && factory.pool().restartIfIdle()) {
                restarts++;
                did.add("restart");
            }
        }
        if (manager != null) {
            manager.close();
        }
        return this;
    }

    private void round(int round) {
        did.clear();
        teamSeen = null;
        try {
            boolean isBegunFirst = random.nextBoolean();
            List<Person> persons = new ArrayList<>();
            if (isBegunFirst) {
                manager.getTransaction().begin();
            }
            for (int i = Math.max(0, ids.size() - MOST_PERSONS); i < ids.size(); i++) {
                Person person = manager.find(Person.class, ids.get(i));
                if (person != null) {
                    persons.add(person);
                }
            }
            if (!isBegunFirst) {
                if (random.nextInt(3) == 0 && factory.pool().restartIfIdle()) {
                    restarts++;
                    did.add("restart between");
                }
                if (!persons.isEmpty() && random.nextBoolean()) {
                    some(persons).setActive(random.nextBoolean());
                }
                manager.getTransaction().begin();
            }
            for (int i = random.nextInt(12); i >= 0; i--) {
                step(round, persons);
            }
            end(round, persons);
        } catch (PersistenceException | IllegalStateException | IllegalArgumentException e) {
            Throwable cause = e instanceof RollbackException && e.getCause() != null ? e.getCause() : e;
            String message = String.valueOf(cause.getMessage()).replaceAll(":.*", "").replaceAll("[0-9]+", "#");
            refused.merge(cause.getClass().getSimpleName() + " " + message, 1, Integer::sum);
            if (manager.getTransaction().isActive()) {
                manager.getTransaction().rollback();
            }
        }
    }

    private void end(int round, List<Person> persons) {
        if (random.nextInt(8) == 0) {
            manager.getTransaction().rollback();
            return;
        }
        manager.getTransaction().commit();
        commits++;
        Map<Long, String> wanted = new TreeMap<>();
        Map<Long, Integer> versions = new TreeMap<>();
        for (Person person : persons) {
            if (manager.contains(person)) {
                wanted.put(person.getId(), told(person));
                versions.put(person.getId(), person.getVersion());
                if (!ids.contains(person.getId())) {
                    ids.add(person.getId());
                }
            }
        }
        checkTeam(round);
        EntityManager reader = factory.createEntityManager();
        for (Map.Entry<Long, String> want : wanted.entrySet()) {
            Person stored = reader.find(Person.class, want.getKey());
            if (hasOthers && stored != null && stored.getVersion() > versions.get(want.getKey())) {
                continue;       // another one committed since it was read, and this one had not changed it
            }
            if (stored == null || !told(stored).equals(want.getValue())) {
                wrong.add("round " + round + " " + did + "\n  had    " + want.getValue() + "\n  stored "
                    + (stored == null ? null : told(stored)));
            }
        }
        reader.close();
        if (keepsManager && random.nextInt(3) > 0) {
            return;
        }
        manager.clear();
    }

    private Person some(List<Person> persons) {
        return persons.isEmpty() ? null : persons.get(random.nextInt(persons.size()));
    }

    private void step(int round, List<Person> persons) {
        Person person = some(persons);
        if (hasOthers && random.nextInt(12) == 0) {
            other(round);
        }
        if (hasKills && random.nextInt(40) == 0) {
            ProcessHandle program = ProcessHandle.of(factory.pool().engine().pid()).orElseThrow();
            program.destroyForcibly();
            program.onExit().join();
            kills++;
            did.add("kill");
        }
        int kind = random.nextInt(22);
        did.add(kind + " " + person);
        if (person == null || kind == 0) {
            persons.add(fresh(round));
            return;
        }
        if (!manager.contains(person)) {
            return;
        }
        change(kind, round, person, persons);
    }

    private Person fresh(int round) {
        Person fresh = random.nextInt(3) == 0 ? new Vip("v" + round, round) : new Person("n" + round);
        for (int i = random.nextInt(3); i > 0; i--) {
            fresh.add(new Order(++number, i));
        }
        if (random.nextInt(4) == 0) {
            return manager.merge(fresh);
        }
        manager.persist(fresh);
        return fresh;
    }

    private void change(int kind, int round, Person person, List<Person> persons) {
        switch (kind) {
            case 1:
                person.setName("r" + random.nextInt(3) + (random.nextInt(5) == 0 ? "é\"\\\n\u0001€😀" : ""));
                break;
            case 2:
                person.add(new Order(++number, random.nextInt(9)));
                break;
            case 3:
                if (!person.getOrders().isEmpty()) {
                    person.getOrders().remove(random.nextInt(person.getOrders().size())).setPerson(null);
                }
                break;
            case 4:
                person.getOrders().forEach(order -> order.setAmount((long) random.nextInt(4)));
                break;
            case 5:
                manager.flush();
                break;
            case 6:
                person.getTags().add(tag());
                break;
            case 7:
                if (!person.getTags().isEmpty()) {
                    person.getTags().remove(person.getTags().iterator().next());
                }
                break;
            case 8:
                if (random.nextInt(3) == 0) {
                    manager.remove(person);
                    persons.remove(person);
                    if (random.nextInt(3) == 0) {
                        manager.persist(person);
                        persons.add(person);
                    }
                }
                break;
            case 9:
                manager.flush();
                manager.refresh(person);
                break;
            case 10:
                detachAndMerge(round, person, persons);
                break;
            case 11:
                person.setAddress(random.nextBoolean() ? null : new Address("s" + random.nextInt(3), null));
                break;
            case 12:
                depot(person);
                break;
            case 13:
                person.setMood(random.nextBoolean() ? null : Person.Mood.SAD);
                break;
            case 14:
                person.getOrders().sort((a, b) -> Long.compare(a.getNumber(), b.getNumber()));
                break;
            case 15:
                if (!person.getOrders().isEmpty()) {
                    Order order = person.getOrders().get(0);
                    order.setDepot(random.nextBoolean() ? null : manager.getReference(Depot.class, "d"));
                }
                break;
            case 16:
                manager.createQuery("SELECT o FROM Order o JOIN FETCH o.person p WHERE p.name LIKE 'r%'", Order.class)
                    .getResultList().forEach(it -> it.setAmount(it.getAmount() + 1));
                break;
            case 17:
                mergeFromAnother(round, person, persons);
                break;
            case 18:
                team(round);
                break;
            case 19:
                manager.createQuery("SELECT DISTINCT p FROM Person p JOIN FETCH p.orders WHERE p.id = :id",
                    Person.class).setParameter("id", person.getId()).getResultList();
                break;
            case 20:
                person.setOrders(new ArrayList<>(person.getOrders()));
                break;
            default:
                Order order = manager.find(Order.class, 1L + random.nextInt((int) number + 1));
                if (order != null && order.getPerson() != null) {
                    order.getPerson().setActive(random.nextBoolean());
                }
        }
    }

    private Tag tag() {
        Tag known = random.nextBoolean() ? null : manager.find(Tag.class, "t" + number);
        return known != null ? known : new Tag("t" + ++number);
    }

    private void detachAndMerge(int round, Person person, List<Person> persons) {
        manager.flush();
        manager.detach(person);
        if (random.nextBoolean()) {
            person.setName("m" + round);
        }
        persons.set(persons.indexOf(person), manager.merge(person));
    }

    /** Merges what another manager read, and changed once that was closed; now and then its lists weren't read. */
    private void mergeFromAnother(int round, Person person, List<Person> persons) {
        manager.flush();
        if (person.getVersion() > 0 && random.nextBoolean()) {
            return;
        }
        Person copy;
        try (EntityManager other = factory.createEntityManager()) {
            copy = other.find(Person.class, person.getId());
            if (copy == null || copy.getVersion() != person.getVersion()) {
                return;
            }
            if (random.nextBoolean()) {
                copy.getOrders().forEach(Order::getAmount);
            }
            if (random.nextBoolean()) {
                copy.getTags().size();
            }
        }
        copy.setName("c" + round);
        if (LoadStates.isReadMember(copy.getOrders())) {
            if (!copy.getOrders().isEmpty()) {
                copy.getOrders().get(0).setAmount(5L);
            }
            copy.add(new Order(++number, 6));
        }
        persons.set(persons.indexOf(person), manager.merge(copy));
    }

    /** Teams have places by a relation without mappedBy, whose orphans the door removes. */
    private void team(int round) {
        Team team = teamId == null ? null : manager.find(Team.class, teamId);
        if (team == null) {
            team = new Team("t" + round);
            manager.persist(team);
            teamId = team.getId();
        }
        if (team.getPlaces().size() > 3) {
            team.getPlaces().remove(random.nextInt(team.getPlaces().size()));
        } else {
            team.getPlaces().add(new Place("p" + round));
        }
        if (random.nextBoolean()) {
            team.getPlaces().get(0).setName("q" + round);
        }
        teamSeen = team;
    }

    private static String told(Team team) {
        return team.getName() + " " + team.getPlaces().stream().map(it -> it.getId() + it.getName()).sorted().toList();
    }

    private void checkTeam(int round) {
        if (teamSeen == null || !manager.contains(teamSeen) || hasOthers) {
            return;
        }
        try (EntityManager reader = factory.createEntityManager()) {
            Team stored = reader.find(Team.class, teamSeen.getId());
            long places = reader.createQuery("SELECT COUNT(p) FROM Place p", Long.class).getSingleResult();
            if (!told(stored).equals(told(teamSeen)) || places != stored.getPlaces().size()) {
                wrong.add("round " + round + " " + did + "\n  had    " + told(teamSeen) + "\n  stored " + told(stored)
                    + " of " + places);
            }
        }
    }

    private void depot(Person person) {
        Depot depot = manager.find(Depot.class, "d");
        if (depot == null) {
            depot = new Depot("d", "here");
            manager.persist(depot);
        }
        for (Order order : person.getOrders()) {
            order.setDepot(depot);
        }
    }

    private void other(int round) {
        EntityManager other = factory.createEntityManager();
        other.getTransaction().begin();
        if (!ids.isEmpty()) {
            Person person = other.find(Person.class, ids.get(ids.size() - 1 - random.nextInt(Math.min(3, ids.size()))));
            if (person != null) {
                person.setName("o" + round);
                if (!person.getOrders().isEmpty()) {
                    person.getOrders().get(0).setAmount(99L);
                }
            }
        }
        other.getTransaction().commit();
        other.close();
        others++;
        did.add("other");
    }

    private static String told(Person person) {
        return person + " " + person.getVersion() + " " + person.getMood() + " " + person.isActive() + " "
            + (person.getAddress() == null ? null : person.getAddress().getStreet()) + " "
            + person.getOrders().stream().map(order -> order.getNumber() + ":" + order.getAmount() + ":"
                + (order.getDepot() == null ? null : order.getDepot().getCode())).sorted().toList() + " "
            + person.getTags().stream().map(Tag::getCode).sorted().toList();
    }

    @Override
    public String toString() {
        return commits + " commits, " + kills + " kills, " + others + " others, " + restarts + " restarts, refused "
            + refused + ", wrong "
            + wrong.size();
    }
}
