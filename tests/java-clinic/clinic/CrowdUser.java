package clinic;

import clinic.web.Asking;
import java.time.LocalDate;
import java.time.LocalDateTime;
import java.util.ArrayList;
import java.util.LinkedHashMap;
import java.util.List;
import java.util.Map;
import java.util.Random;
import java.util.concurrent.Callable;
import java.util.concurrent.TimeUnit;

/** One of many: books, bills and cancels appointments, uploads documents, and counts in the notes of a patient. */
final class CrowdUser implements Callable<Void> {
    static final LocalDate FIRST = LocalDate.of(2031, 1, 1);
    static final int DAYS = 60;
    private static final long PATIENCE = TimeUnit.SECONDS.toNanos(120);
    private final Asking desk;
    private final int number;
    private final Told told;
    private final long end;
    private final Random random;
    private final List<Long> mine = new ArrayList<>();
    private final List<Long> patients;
    private final List<Long> doctors;

    CrowdUser(Asking desk, int number, List<Long> patients, List<Long> doctors, Told told, long end) {
        this.desk = desk;
        this.number = number;
        this.told = told;
        this.end = end;
        this.patients = patients;
        this.doctors = doctors;
        random = new Random(number * 0x9E3779B97F4A7C15L); // Seeds beside each other begin alike.
    }

    static String document(int seed) {
        return ("letter " + seed + " ").repeat(1 + seed % 9000);
    }

    @Override
    public Void call() throws Exception {
        for (var turn = 0; System.nanoTime() < end || !told.isEnough() && System.nanoTime() < end + PATIENCE; turn++) {
            switch (random.nextInt(8)) {
                case 0 -> cancel();
                case 1, 2 -> bill();
                case 3 -> upload();
                case 4 -> count();
                case 5 -> look();
                default -> book(number + "/" + turn);
            }
        }
        return null;
    }

    private void book(String reason) throws Exception {
        var doctor = doctors.get(random.nextInt(doctors.size()));
        var patient = patients.get(random.nextInt(patients.size()));
        LocalDateTime starts = FIRST.plusDays(random.nextInt(DAYS)).atTime(8 + random.nextInt(8), 15 * random.nextInt(4));
        told.wants(reason);
        var answer = desk.json("POST", "/api/appointments",
                Map.of("doctor", doctor, "patient", patient, "starts", starts, "reason", reason));
        if (told.confirms(answer.status(), answer.text())) {
            told.booked().put(answer.id(), doctor + " " + starts);
            mine.add(answer.id());
        }
    }

    private void cancel() throws Exception {
        if (!mine.isEmpty()) {
            var id = mine.remove(random.nextInt(mine.size()));
            told.booked().remove(id); // Whatever is answered, nobody counts on it from now on.
            var answer = desk.json("DELETE", "/api/appointments/" + id, Map.of());
            if (told.confirms(answer.status(), answer.text())) {
                told.cancelled().add(id);
            }
        }
    }

    private void bill() throws Exception {
        if (mine.isEmpty()) {
            return;
        }
        var id = mine.remove(random.nextInt(mine.size()));
        var lines = new ArrayList<Map<String, Object>>();
        var many = 1 + random.nextInt(6);
        for (var each = 1; each <= many; each++) {
            lines.add(Map.of("text", "one of " + many, "quantity", 2, "price", "1.01"));
        }
        var answer = desk.json("POST", "/api/appointments/" + id + "/invoice", Map.of("lines", lines));
        if (told.confirms(answer.status(), answer.text())) {
            told.invoices().put(answer.id(), String.format("%d.%02d", 2 * many, 2 * many));
        }
    }

    private void upload() throws Exception {
        var seed = random.nextInt(20_000);
        var answer = desk.send("POST", "/api/patients/" + patients.get(1) + "/documents?name=letter", "text/plain", document(seed).getBytes());
        if (told.confirms(answer.status(), answer.text())) {
            told.documents().put(answer.id(), seed);
        }
    }

    private void count() throws Exception {
        var path = "/api/patients/" + patients.get(0);
        var shown = desk.get(path);
        if (!told.confirms(shown.status(), shown.text())) {
            return;
        }
        var form = new LinkedHashMap<Object, Object>(shown.object());
        form.compute("notes", (name, notes) -> notes == null ? "1" : String.valueOf(Long.parseLong(notes.toString()) + 1));
        var answer = desk.json("PUT", path, form);
        told.counts(told.confirms(answer.status(), answer.text()), answer.status());
    }

    private void look() throws Exception {
        var paths = List.of("/", "/patients?name=a", "/patients/" + patients.get(0), "/invoices", "/reports/turnover", "/doctors",
                "/?day=" + FIRST.plusDays(random.nextInt(DAYS)));
        var answer = desk.get(paths.get(random.nextInt(paths.size())));
        told.confirms(answer.status(), answer.text());
    }
}
