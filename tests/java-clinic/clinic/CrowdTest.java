package clinic;

import static org.junit.jupiter.api.Assertions.assertEquals;
import static org.junit.jupiter.api.Assertions.assertTrue;

import clinic.common.Page;
import clinic.web.Asking;
import java.nio.file.Path;
import java.util.ArrayList;
import java.util.List;
import java.util.Map;
import java.util.concurrent.Callable;
import java.util.concurrent.Executors;
import java.util.concurrent.TimeUnit;
import org.junit.jupiter.api.Test;
import org.junit.jupiter.api.io.TempDir;

/**
 * Fifty users at once for some seconds, or for as many as the property {@code clinic.seconds} says, and on a busy
 * machine until enough was confirmed. The program is killed meanwhile, as often as {@code clinic.kills} says. Then the store is opened again: what was
 * confirmed is there, nothing is there by halves, and no appointment was given twice.
 */
class CrowdTest {
    private static final int USERS = 50;
    private static final int SECONDS = Integer.getInteger("clinic.seconds", 6);
    private static final int KILLS = Integer.getInteger("clinic.kills", 1);
    @TempDir Path folder;

    @Test
    void nothingConfirmedIsLost() throws Exception {
        var told = new Told();
        told.expectKills(KILLS);
        try (var served = new Served(folder)) {
            var sessions = new ArrayList<Asking>();
            for (var each = 0; each < 5; each++) {
                sessions.add(served.as("desk"));
            }
            var patients = List.copyOf(sessions.get(0).keys("/api/patients", "name").values());
            var doctors = List.copyOf(sessions.get(0).keys("/api/doctors", "name").values());
            var end = System.nanoTime() + TimeUnit.SECONDS.toNanos(SECONDS);
            var users = new ArrayList<Callable<Void>>();
            for (var each = 0; each < USERS; each++) {
                users.add(new CrowdUser(sessions.get(each % sessions.size()), each, patients, doctors, told, end));
            }
            var threads = Executors.newFixedThreadPool(USERS);
            try {
                var working = users.stream().map(threads::submit).toList();
                for (var kill = 1; kill <= KILLS; kill++) {
                    TimeUnit.SECONDS.sleep(SECONDS / (KILLS + 1));
                    told.awaitConfirmed(60);
                    killProgram();
                    told.killed();
                }
                for (var each : working) {
                    each.get();
                }
            } finally {
                threads.shutdownNow();
            }
        }
        assertEquals(List.of(), told.odd());
        System.out.println(told);
        assertTrue(told.isEnough(), "too little was confirmed since the program was killed");
        try (var served = new Served(folder)) {
            check(served.as("desk"), told);
        }
    }

    private static void killProgram() {
        var program = System.getProperty("karzhoul.program");
        var killed = ProcessHandle.current().descendants()
                .filter(each -> each.info().command().orElse("").equals(program))
                .filter(ProcessHandle::destroyForcibly).count();
        assertEquals(1, killed);
    }

    private static void check(Asking desk, Told told) throws Exception {
        var appointments = new ArrayList<Map<?, ?>>();
        for (var day = 0; day < CrowdUser.DAYS; day++) {
            for (var each : desk.get("/api/appointments?day=" + CrowdUser.FIRST.plusDays(day)).list()) {
                appointments.add((Map<?, ?>) each);
            }
        }
        var times = appointments.stream().map(each -> each.get("doctorId") + " " + each.get("starts")).toList();
        assertEquals(times.size(), times.stream().distinct().count(), "an appointment was given twice");
        for (var booked : told.booked().entrySet()) {
            assertTrue(times.contains(booked.getValue()), () -> "appointment " + booked + " is lost");
        }
        for (var each : appointments) {
            assertTrue(told.wasWanted(each.get("reason").toString()), () -> each + " was wanted by nobody");
            assertTrue(!told.cancelled().contains(Long.parseLong(each.get("id").toString())), () -> each + " is back");
        }
        for (var invoice : told.invoices().entrySet()) {
            assertEquals(invoice.getValue(), desk.get("/api/invoices/" + invoice.getKey()).object().get("total").toString());
        }
        checkInvoices(desk, appointments);
        for (var document : told.documents().entrySet()) {
            var content = desk.get("/api/documents/" + document.getKey()).response().body();
            assertEquals(CrowdUser.document(document.getValue()), new String(content));
        }
        var first = desk.keys("/api/patients", "name").values().iterator().next();
        var count = Long.parseLong(desk.get("/api/patients/" + first).object().get("notes").toString());
        assertTrue(count >= told.counted() && count <= told.counted() + told.perhapsCounted(),
                () -> told.counted() + " changes were confirmed, and " + count + " are there");
    }

    /** Each invoice has the lines that it says, and an appointment is billed where it has one. */
    private static void checkInvoices(Asking desk, List<Map<?, ?>> appointments) throws Exception {
        var billed = new ArrayList<Object>();
        for (long page = 1, pages = 1; page <= pages; page++) {
            var answer = desk.get("/api/invoices?page=" + page).object();
            pages = (Long.parseLong(answer.get("total").toString()) + Page.ROWS - 1) / Page.ROWS;
            for (var each : (List<?>) answer.get("rows")) {
                var invoice = (Map<?, ?>) each;
                var lines = (List<?>) invoice.get("lines");
                var first = ((Map<?, ?>) lines.get(0)).get("text").toString();
                assertEquals(Integer.parseInt(first.replace("one of ", "")), lines.size(), invoice::toString);
                billed.add(invoice.get("appointment").toString());
            }
        }
        billed.sort(null);
        assertEquals(billed, appointments.stream().filter(each -> each.get("state").equals("BILLED"))
                .map(each -> each.get("id").toString()).sorted().toList());
    }
}
