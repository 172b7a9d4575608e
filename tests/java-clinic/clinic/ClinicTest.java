package clinic;

import static org.junit.jupiter.api.Assertions.assertArrayEquals;
import static org.junit.jupiter.api.Assertions.assertEquals;
import static org.junit.jupiter.api.Assertions.assertFalse;
import static org.junit.jupiter.api.Assertions.assertTrue;

import clinic.web.Asking;
import clinic.web.Asking.Answer;
import java.io.ByteArrayOutputStream;
import java.nio.charset.StandardCharsets;
import java.nio.file.Path;
import java.util.ArrayList;
import java.util.Collections;
import java.util.HashMap;
import java.util.List;
import java.util.Map;
import java.util.Random;
import java.util.concurrent.Callable;
import java.util.concurrent.Executors;
import org.junit.jupiter.api.AfterAll;
import org.junit.jupiter.api.BeforeAll;
import org.junit.jupiter.api.Test;
import org.junit.jupiter.api.io.TempDir;

/** Each page and each call of the API, by HTTP. */
class ClinicTest {
    private static final String BEGIN = "2031-05-06T";
    @TempDir static Path folder;
    private static Served served;
    private static Asking desk;
    private static Asking admin;
    private static long ada;
    private static long roth;
    private static long weil;
    private static long visit;

    @BeforeAll
    static void serve() throws Exception {
        served = new Served(folder);
        desk = served.as("desk");
        admin = served.as("admin");
        ada = desk.keys("/api/patients", "name").get("Ada Marsh");
        roth = desk.keys("/api/doctors", "name").get("Dr. Roth");
        weil = desk.keys("/api/doctors", "name").get("Dr. Weil");
        visit = desk.keys("/api/appointments", "patient").get("Ada Marsh");
    }

    @AfterAll
    static void end() {
        served.close();
    }

    @Test
    void whoIsNotSignedInSeesNothing() throws Exception {
        var anybody = served.anybody();
        for (var path : List.of("/", "/patients/" + ada, "/users")) {
            var answer = anybody.get(path);
            assertEquals(401, answer.status());
            assertTrue(answer.text().contains("<form method=\"post\" action=\"/login\">"));
        }
        assertEquals(401, anybody.get("/api/patients").status());
        assertEquals(401, anybody.form("/login", Map.of("login", "desk", "password", "no")).status());
        assertEquals(401, anybody.json("POST", "/api/login", Map.of("login", "nobody", "password", "no")).status());
        var signedIn = served.as("desk");
        assertEquals(200, signedIn.get("/").status());
        assertEquals(303, signedIn.form("/logout", Map.of()).status());
        assertEquals(401, signedIn.get("/").status());
    }

    @Test
    void eachPageIsThere() throws Exception {
        shows(desk.get("/"), "Ada Marsh", "Dr. Roth", "first visit");
        shows(desk.get("/?day=2031-01-01"), "Appointments of 2031-01-01");
        shows(desk.get("/patients"), "Bob Émile", "1957-03-14");
        shows(desk.get("/patients/" + ada), "Ada Marsh", "Dr. Roth");
        shows(desk.get("/doctors"), "Cardiology", "Dr. Ek", "floor 3");
        shows(desk.get("/appointments/" + visit + "/invoice"), "lines.0.text");
        shows(desk.get("/invoices"), "Invoices");
        shows(desk.get("/reports/turnover"), "Turnover of");
        shows(admin.get("/users"), "desk", "ADMINISTRATOR");
    }

    @Test
    void whatIsNotThereIsToldInWords() throws Exception {
        assertEquals(404, desk.get("/nothing").status());
        assertEquals(404, desk.get("/patients/abc").status());
        assertEquals("there is no patient 99999", desk.get("/api/patients/99999").object().get("error"));
        assertEquals(404, desk.get("/documents/99999").status());
        assertEquals(404, desk.get("/invoices/99999").status());
        assertEquals(405, desk.json("DELETE", "/api/patients/" + ada, Map.of()).status());
        assertEquals(400, desk.send("POST", "/api/patients", "application/json", "{\"name\":".getBytes()).status());
        assertEquals(400, desk.send("POST", "/api/patients", "application/json", "[1]".getBytes()).status());
    }

    @Test
    void eachFaultOfAFormIsTold() throws Exception {
        var before = total("");
        var answer = desk.json("POST", "/api/patients", Map.of("name", " ", "born", "2999-01-01", "email", "no", "phone", "x"));
        assertEquals(422, answer.status());
        assertEquals(Map.of("name", "is missing", "born", "is in the future", "email", "is no address", "phone", "is no number"),
                answer.object().get("faults"));
        assertEquals(Map.of("born", "is no day as 2026-11-30"),
                desk.json("POST", "/api/patients", Map.of("name", "Ann", "born", "tomorrow")).object().get("faults"));
        var half = desk.send("POST", "/api/patients", "application/json",
                "{\"name\":\"\\ud800\",\"born\":\"2000-01-01\"}".getBytes(StandardCharsets.UTF_8));
        assertEquals(Map.of("name", "has half a character"), half.object().get("faults"));
        var page = desk.form("/patients", Map.of("name", "", "born", "2000-01-01"));
        assertEquals(422, page.status());
        assertTrue(page.text().contains("name is missing"));
        assertEquals(before, total(""));
    }

    @Test
    void aNameIsFoundWhicheverLettersAreCapitals() throws Exception {
        assertEquals(List.of("Cleo Öz"), names("öZ"));
        assertEquals(List.of("Bob Émile"), names("ÉMI"));
        assertEquals(List.of("Dan O'Hara"), names("o'h"));
        assertEquals(List.of(), names("%"));
        assertEquals(List.of(), names("_da Marsh"));
        shows(desk.get("/patients?name=" + Asking.encoded("O'H")), "Dan O&#39;Hara", "value=\"O&#39;H\"");
    }

    @Test
    void aPageHasTwentyRows() throws Exception {
        for (var each = 1; each <= 25; each++) {
            patient(String.format("Paged %02d", each));
        }
        assertEquals(25, total("PAGED"));
        assertEquals(20, names("paged").size());
        var second = desk.get("/api/patients?name=paged&page=2").object();
        assertEquals(List.of("Paged 21", "Paged 22", "Paged 23", "Paged 24", "Paged 25"), names(second));
        shows(desk.get("/patients?name=paged&page=2"), "Page 2 of 2, 25 patients", "before");
        assertEquals(List.of(), names(desk.get("/api/patients?name=paged&page=3").object()));
    }

    @Test
    void whatAPersonWritesIsNoHtml() throws Exception {
        var id = patient("<script>alert(\"1\")</script>");
        var page = desk.get("/patients/" + id).text();
        assertFalse(page.contains("<script>"));
        assertTrue(page.contains("&lt;script&gt;"));
    }

    @Test
    void bothVersionsAreShownWhereTwoChangeAPatient() throws Exception {
        var path = "/patients/" + patient("Fay");
        var shown = form(path);
        var theirs = new HashMap<Object, Object>(shown);
        theirs.put("phone", "+41 44 111");
        assertEquals(200, desk.json("PUT", "/api" + path, theirs).status());
        var yours = new HashMap<String, Object>();
        shown.forEach((name, value) -> yours.put(name.toString(), value == null ? "" : value));
        yours.put("phone", "+41 44 222");

        var conflict = desk.json("PUT", "/api" + path, yours);
        assertEquals(409, conflict.status());
        assertEquals("+41 44 222", ((Map<?, ?>) conflict.object().get("yours")).get("phone"));
        assertEquals("+41 44 111", ((Map<?, ?>) conflict.object().get("theirs")).get("phone"));
        var page = desk.form(path, yours);
        assertEquals(409, page.status());
        assertTrue(page.text().contains("<td>+41 44 222</td><td>+41 44 111</td>"), page.text());
        assertEquals("+41 44 111", form(path).get("phone"));

        var version = form(path).get("version");
        assertTrue(page.text().contains("name=\"version\" value=\"" + version + "\""), page.text());
        yours.put("version", version);
        assertEquals(303, desk.form(path, yours).status());
        assertEquals("+41 44 222", form(path).get("phone"));
    }

    @Test
    void anAppointmentIsGivenOnce() throws Exception {
        var wanted = Map.of("doctor", weil, "patient", ada, "starts", BEGIN + "10:15", "reason", "again");
        var booked = desk.json("POST", "/api/appointments", wanted);
        assertEquals(201, booked.status());
        assertEquals("Dr. Weil", booked.object().get("doctor"));
        assertEquals(409, desk.json("POST", "/api/appointments", wanted).status());
        assertEquals(409, desk.form("/appointments", wanted).status());
        assertEquals(303, desk.form("/appointments/" + booked.id() + "/cancel", Map.of()).status());
        assertEquals(303, desk.form("/appointments", wanted).status());
        var faulty = Map.of("doctor", weil, "patient", ada, "starts", BEGIN + "10:16");
        assertEquals(Map.of("starts", "is no quarter of an hour"),
                desk.json("POST", "/api/appointments", faulty).object().get("faults"));
        var nobody = Map.of("doctor", weil, "patient", 99999, "starts", BEGIN + "10:30");
        assertEquals("there is no patient 99999", desk.json("POST", "/api/appointments", nobody).object().get("error"));
    }

    @Test
    void oneOfManyGetsAnAppointment() throws Exception {
        var threads = Executors.newFixedThreadPool(12);
        try {
            for (var hour = 10; hour < 15; hour++) {
                var wanted = Map.of("doctor", weil, "patient", ada, "starts", BEGIN + hour + ":45");
                Callable<Integer> book = () -> desk.json("POST", "/api/appointments", wanted).status();
                var statuses = new ArrayList<Integer>();
                for (var each : threads.invokeAll(Collections.nCopies(12, book))) {
                    statuses.add(each.get());
                }
                statuses.sort(null);
                assertEquals(List.of(201, 409, 409, 409, 409, 409, 409, 409, 409, 409, 409, 409), statuses);
            }
        } finally {
            threads.shutdown();
        }
    }

    @Test
    void anInvoiceHasItsLinesAndIsPaidOnce() throws Exception {
        var appointment = book(roth, BEGIN + "08:00");
        var fields = Map.of("lines.0.text", "Visit", "lines.0.quantity", "1", "lines.0.price", "80",
                "lines.1.text", "Bandage", "lines.1.quantity", "3", "lines.1.price", "2.35",
                "lines.2.text", "", "lines.2.quantity", "", "lines.2.price", "");
        var issued = desk.form("/appointments/" + appointment + "/invoice", fields);
        assertEquals(303, issued.status(), issued.text());
        var path = issued.header("Location");
        shows(desk.get(path), "80.00", "2.35", "87.05", "It is paid");
        assertEquals(409, desk.form("/appointments/" + appointment + "/invoice", fields).status());
        assertEquals(409, desk.json("DELETE", "/api/appointments/" + appointment, Map.of()).status());
        shows(desk.form(path + "/pay", Map.of()), "Paid on");
        assertEquals(409, desk.json("POST", "/api" + path + "/pay", Map.of()).status());
        var faulty = Map.of("lines", List.of(Map.of("text", "Visit", "quantity", 0, "price", "1.234")));
        assertEquals(Map.of("lines.0.quantity", "is none of 1 to 1000", "lines.0.price", "has more than two decimals"),
                desk.json("POST", "/api/appointments/" + visit + "/invoice", faulty).object().get("faults"));
        shows(desk.get("/invoices"), "87.05");
        assertTrue(desk.get("/api/invoices").text().contains("\"total\":87.05"));
    }

    @Test
    void theReportHasSumsByDoctorAndMonth() throws Exception {
        invoice(roth, "2032-02-01T08:00", "2032-02-01", "10.10", "0.25");
        invoice(roth, "2032-02-29T08:00", "2032-02-29", "5");
        invoice(roth, "2032-03-01T08:00", "2032-03-01", "7.77");
        invoice(weil, "2032-02-02T08:00", "2032-02-02", "1.00");
        invoice(weil, "2033-01-01T08:00", "2033-01-01", "100.00");
        var told = desk.get("/api/reports/turnover?year=2032").list().stream().map(each -> (Map<?, ?>) each)
                .map(each -> each.get("doctor") + " " + each.get("month") + " " + each.get("total")).toList();
        assertEquals(List.of("Dr. Roth 2032-02 15.35", "Dr. Roth 2032-03 7.77", "Dr. Weil 2032-02 1.00"), told);
        shows(desk.get("/reports/turnover?year=2032"), "Turnover of 2032", "15.35");
    }

    @Test
    void aDocumentComesBackAsItWas() throws Exception {
        var content = new byte[130_001];
        new Random(1).nextBytes(content);
        System.arraycopy("\r\n\r\n--other\r\n".getBytes(), 0, content, 49_995, 13);
        var id = patient("Gil");
        var body = new ByteArrayOutputStream();
        body.writeBytes(("--xyz\r\nContent-Disposition: form-data; name=\"file\"; filename=\"Übung 1.bin\"\r\n"
                + "Content-Type: application/pdf\r\n\r\n").getBytes(StandardCharsets.UTF_8));
        body.writeBytes(content);
        body.writeBytes("\r\n--xyz--\r\n".getBytes());
        var upload = desk.send("POST", "/patients/" + id + "/documents", "multipart/form-data; boundary=xyz", body.toByteArray());
        assertEquals(303, upload.status(), upload.text());
        shows(desk.get("/patients/" + id), "Übung 1.bin", "130001 bytes");
        var document = ((Map<?, ?>) desk.get("/api/patients/" + id + "/documents").list().get(0)).get("id");
        var download = desk.get("/documents/" + document);
        assertArrayEquals(content, download.response().body());
        assertEquals("application/pdf", download.header("Content-Type"));
        assertEquals("attachment; filename*=UTF-8''%C3%9Cbung%201.bin", download.header("Content-Disposition"));
        assertEquals(303, desk.form("/documents/" + document + "/delete", Map.of()).status());
        assertEquals(404, desk.get("/api/documents/" + document).status());
        var api = "/api/patients/" + id + "/documents?name=";
        assertEquals(422, desk.send("POST", api + "a", "text/plain", new byte[2_000_001]).status());
        assertEquals(422, desk.send("POST", api, "text/plain", new byte[1]).status());
        assertEquals(413, desk.send("POST", api + "a", "text/plain", new byte[2_500_001]).status());
        assertEquals(201, desk.send("POST", api + "a", "text/plain; charset=utf-8", new byte[2_000_000]).status());
        assertEquals(422, desk.send("POST", api + "a", "text", new byte[1]).status());
    }

    @Test
    void anAdministratorMakesUsersAndDoctors() throws Exception {
        var user = Map.of("login", "kim", "password", "long enough", "role", "STAFF");
        assertEquals(403, desk.json("POST", "/api/users", user).status());
        assertEquals(403, desk.get("/users").status());
        assertEquals(303, admin.form("/users", user).status());
        assertEquals(409, admin.json("POST", "/api/users", user).status());
        assertEquals(200, served.anybody().as("kim", "long enough").get("/").status());
        assertFalse(admin.get("/api/users").text().contains("hash"));
        assertEquals(303, admin.form("/doctors", Map.of("name", "Dr. Zola", "department", "DERM")).status());
        assertEquals(404, admin.json("POST", "/api/doctors", Map.of("name", "Dr. Zola", "department", "NONE")).status());
        assertEquals(403, desk.json("POST", "/api/doctors", Map.of("name", "Dr. Who", "department", "DERM")).status());
        assertTrue(desk.get("/api/doctors").text().contains("Dr. Zola"));
    }

    private static void shows(Answer answer, String... words) {
        assertEquals(200, answer.status(), answer.text());
        for (var each : words) {
            assertTrue(answer.text().contains(each), () -> each + " isn't in " + answer.text());
        }
    }

    private static long patient(String name) throws Exception {
        return desk.json("POST", "/api/patients", Map.of("name", name, "born", "1990-01-02")).id();
    }

    private static Map<?, ?> form(String path) throws Exception {
        return desk.get("/api" + path).object();
    }

    private static long book(long doctor, String starts) throws Exception {
        return desk.json("POST", "/api/appointments", Map.of("doctor", doctor, "patient", ada, "starts", starts)).id();
    }

    private static void invoice(long doctor, String starts, String issued, String... prices) throws Exception {
        var lines = List.of(prices).stream().map(each -> Map.of("text", "Visit", "quantity", 1, "price", each)).toList();
        var path = "/api/appointments/" + book(doctor, starts) + "/invoice";
        assertEquals(201, desk.json("POST", path, Map.of("issued", issued, "lines", lines)).status());
    }

    private static long total(String name) throws Exception {
        return Long.parseLong(desk.get("/api/patients?name=" + Asking.encoded(name)).object().get("total").toString());
    }

    private static List<?> names(String name) throws Exception {
        return names(desk.get("/api/patients?name=" + Asking.encoded(name)).object());
    }

    private static List<?> names(Map<?, ?> page) {
        return ((List<?>) page.get("rows")).stream().map(each -> ((Map<?, ?>) each).get("name")).toList();
    }
}
