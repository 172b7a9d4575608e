package karzhoul.jpa.context;

import static org.junit.jupiter.api.Assertions.assertEquals;

import java.util.List;
import java.util.function.Consumer;
import karzhoul.jpa.shop.Place;
import karzhoul.jpa.shop.Team;
import org.junit.jupiter.api.Test;

/** What left a relation that removes orphans goes with the flush, whichever call before it told the program so (chapter 2.9). */
class OrphansToldEarlyTest extends Tried {
    /** The names of the places that are there once this was done to a team, whose places are a and b. */
    private List<String> left(Consumer<Team> done) {
        Team team = new Team("t");
        team.getPlaces().addAll(List.of(new Place("a"), new Place("b")));
        store(team);
        commit(() -> done.accept(manager.find(Team.class, team.getId())));
        manager.clear();
        List<String> left = manager.createQuery("SELECT p.name FROM Place p ORDER BY p.name", String.class).getResultList();
        commit(() -> manager.createQuery("SELECT t FROM Team t", Team.class).getResultList().forEach(manager::remove));
        commit(() -> manager.createQuery("DELETE FROM Place p").executeUpdate());
        manager.clear();
        return left;
    }

    @Test
    void itGoesWithTheFlush() {
        assertEquals(List.of("b"), left(team -> team.getPlaces().remove(0)));
        assertEquals(List.of("b"), left(team -> {
            team.getPlaces().remove(0);
            manager.persist(team);
        }));
        assertEquals(List.of("b"), left(team -> {
            team.getPlaces().remove(0);
            manager.merge(team);
        }));
        assertEquals(List.of(), left(team -> {
            team.getPlaces().remove(0);
            manager.remove(team);
        }));
    }

    @Test
    void whatIsBackStays() {
        assertEquals(List.of("a", "b"), left(team -> {
            Place back = team.getPlaces().remove(0);
            manager.persist(team);
            team.getPlaces().add(back);
        }));
        assertEquals(List.of("a", "b"), left(team -> {
            team.getPlaces().remove(0);
            manager.persist(team);
            manager.refresh(team);
        }));
    }
}
