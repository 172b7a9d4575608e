package clinic.calendar;

import clinic.common.Store;
import clinic.people.DoctorRow;
import clinic.people.Doctors;
import clinic.web.Html;
import clinic.web.Request;
import clinic.web.Response;
import clinic.web.Router;
import jakarta.persistence.RollbackException;
import java.time.LocalDate;
import java.util.List;

/** The appointments of a day: shown, booked and cancelled. */
public final class AppointmentPages {
    private final Store store;

    private record Shown(List<AppointmentRow> appointments, List<DoctorRow> doctors) {}

    private record Asked(LocalDate day) {
        Asked {
            day = day == null ? LocalDate.now() : day;
        }
    }

    public AppointmentPages(Store store) {
        this.store = store;
    }

    public void add(Router router) {
        router.on("GET", "/", this::list)
                .on("POST", "/appointments", this::bookByPage)
                .on("POST", "/appointments/{id}/cancel", this::cancelByPage)
                .on("GET", "/api/appointments", request -> Response.json(200, on(request.asked(Asked.class).day())))
                .on("POST", "/api/appointments", request -> Response.json(201, book(request)))
                .on("DELETE", "/api/appointments/{id}", request -> {
                    cancel(request);
                    return Response.nothing();
                });
    }

    private List<AppointmentRow> on(LocalDate day) {
        return store.within(manager -> new Appointments(manager).on(day));
    }

    /** Books an appointment; where another one takes the time first, that is found by the commit. */
    private AppointmentRow book(Request request) {
        var form = request.form(AppointmentForm.class).checked();
        try {
            return store.within(manager -> new Appointments(manager).book(form));
        } catch (RollbackException failed) {
            if (store.within(manager -> new Appointments(manager).isTaken(form))) {
                throw Appointments.taken(form);
            }
            throw failed;
        }
    }

    private void cancel(Request request) {
        store.within(manager -> {
            new Appointments(manager).cancel(request.id());
            return null;
        });
    }

    private Response bookByPage(Request request) {
        return Response.seeOther("/?day=" + book(request).starts().toLocalDate());
    }

    private Response cancelByPage(Request request) {
        cancel(request);
        return Response.seeOther("/");
    }

    private Response list(Request request) {
        var day = request.asked(Asked.class).day();
        var shown = store.within(manager -> new Shown(new Appointments(manager).on(day), new Doctors(manager).all()));
        var rows = Html.each(shown.appointments, AppointmentPages::row);
        var doctors = Html.each(shown.doctors,
                each -> Html.of("<option value=\"{}\">{}, {}</option>", each.id(), each.name(), each.department()));
        return Response.page("Appointments of " + day, Html.of("""
                <form><input type="date" name="day" value="{}"><button>Show</button></form><table>{}</table>
                <h2>New appointment</h2><form method="post" action="/appointments">
                <label>Doctor <select name="doctor">{}</select></label>
                <label>Number of the patient <input name="patient" required></label>
                <label>Begins <input type="datetime-local" step="900" name="starts" required></label>
                <label>Reason <input name="reason"></label><button>Book</button></form>""", day, rows, doctors));
    }

    private static Html row(AppointmentRow each) {
        var ways = each.state() == AppointmentState.BILLED ? Html.NOTHING : Html.of("""
                <a href="/appointments/{}/invoice">Invoice</a>
                <form class="inline" method="post" action="/appointments/{}/cancel"><button>Cancel</button></form>""",
                each.id(), each.id());
        return Html.of("<tr><td>{}</td><td>{}</td><td><a href=\"/patients/{}\">{}</a></td><td>{}</td><td>{}</td></tr>",
                each.starts().toLocalTime(), each.doctor(), each.patientId(), each.patient(), each.reason(), ways);
    }
}
