package clinic.people;

import clinic.calendar.AppointmentRow;
import clinic.calendar.Appointments;
import clinic.common.Conflict;
import clinic.common.Page;
import clinic.common.Store;
import clinic.documents.DocumentRow;
import clinic.documents.Documents;
import clinic.web.Html;
import clinic.web.Request;
import clinic.web.Response;
import clinic.web.Router;
import jakarta.persistence.PersistenceException;
import java.util.List;
import java.util.Map;

/** Patients: found by their names, shown with what belongs to them, made and changed. */
public final class PatientPages {
    private final Store store;

    private record Shown(PatientForm form, List<AppointmentRow> appointments, List<DocumentRow> documents) {}

    private record Search(String name, Integer page) {
        String part() {
            return name == null ? "" : name;
        }

        int number() {
            return page == null ? 1 : Math.max(1, Math.min(page, 1_000_000));
        }
    }

    public PatientPages(Store store) {
        this.store = store;
    }

    public void add(Router router) {
        router.on("GET", "/patients", this::list)
                .on("POST", "/patients", request -> Response.seeOther("/patients/" + make(request)))
                .on("GET", "/patients/{id}", this::show)
                .on("POST", "/patients/{id}", this::changeByPage)
                .on("GET", "/api/patients", request -> Response.json(200, found(request.asked(Search.class))))
                .on("POST", "/api/patients", request -> Response.json(201, Map.of("id", make(request))))
                .on("GET", "/api/patients/{id}", request -> Response.json(200, form(request.id())))
                .on("PUT", "/api/patients/{id}", request -> Response.json(200, change(request)));
    }

    private Page<PatientRow> found(Search search) {
        return store.within(manager -> new Patients(manager).named(search.part(), search.number()));
    }

    private long make(Request request) {
        var form = request.form(PatientForm.class).checked();
        return store.within(manager -> new Patients(manager).add(form).id());
    }

    private PatientForm form(long id) {
        return store.within(manager -> new Patients(manager).of(id).form());
    }

    /** @throws Conflict where somebody else has changed the patient since the form was shown */
    private PatientForm change(Request request) {
        var form = request.form(PatientForm.class).checked();
        try {
            store.within(manager -> new Patients(manager).change(request.id(), form));
        } catch (PersistenceException failed) {
            if (Store.isStale(failed)) {
                throw new Conflict(form, form(request.id()));
            }
            throw failed;
        }
        return form(request.id());
    }

    private Response changeByPage(Request request) {
        change(request);
        return Response.seeOther(request.path());
    }

    private Response list(Request request) {
        var search = request.asked(Search.class);
        var found = found(search);
        var rows = Html.each(found.rows(), each -> Html.of(
                "<tr><td><a href=\"/patients/{}\">{}</a></td><td>{}</td></tr>", each.id(), each.name(), each.born()));
        return Response.page("Patients", Html.of("""
                        <form><input name="name" value="{}" placeholder="a part of the name"><button>Find</button></form>
                        <table><tr><th>Name</th><th>Born</th></tr>{}</table>
                        <p>Page {} of {}, {} patients {}{}</p>
                        <h2>New patient</h2>{}""",
                search.part(), rows, found.number(), found.pages(), found.total(),
                way(search, found.number() - 1, found, "before"), way(search, found.number() + 1, found, "next"),
                inputs("/patients", new PatientForm(null, null, null, null, null, null))));
    }

    private static Html way(Search search, int number, Page<?> page, String words) {
        if (number < 1 || number > page.pages()) {
            return Html.NOTHING;
        }
        return Html.of("<form class=\"inline\"><input type=\"hidden\" name=\"name\" value=\"{}\">"
                + "<button name=\"page\" value=\"{}\">{}</button></form>", search.part(), number, words);
    }

    private Response show(Request request) {
        var id = request.id();
        var shown = store.within(manager -> new Shown(new Patients(manager).of(id).form(),
                new Appointments(manager).of(id), new Documents(manager).of(id)));
        var appointments = Html.each(shown.appointments, each -> Html.of(
                "<tr><td>{}</td><td>{}</td><td>{}</td></tr>", each.starts(), each.doctor(), each.reason()));
        var documents = Html.each(shown.documents, each -> Html.of("""
                <tr><td><a href="/documents/{}">{}</a></td><td>{} bytes</td><td>{}</td><td>
                <form method="post" action="/documents/{}/delete"><button>Delete</button></form></td></tr>""",
                each.id(), each.name(), each.size(), each.uploaded(), each.id()));
        return Response.page(shown.form.name(), Html.of("""
                {}<h2>Appointments</h2><table>{}</table><h2>Documents</h2><table>{}</table>
                <form method="post" enctype="multipart/form-data" action="/patients/{}/documents">
                <input type="file" name="file"><button>Upload</button></form>""",
                inputs(request.path(), shown.form), appointments, documents, id));
    }

    private static Html inputs(String path, PatientForm form) {
        return Html.of("""
                <form method="post" action="{}"><input type="hidden" name="version" value="{}">
                <label>Name <input name="name" value="{}" required></label>
                <label>Born <input name="born" type="date" value="{}" required></label>
                <label>E-mail <input name="email" value="{}"></label>
                <label>Phone <input name="phone" value="{}"></label>
                <label>Notes <textarea name="notes">{}</textarea></label><button>Save</button></form>""",
                path, form.version(), form.name(), form.born(), form.email(), form.phone(), form.notes());
    }
}
