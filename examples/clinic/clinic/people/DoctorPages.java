package clinic.people;

import clinic.common.Store;
import clinic.web.Html;
import clinic.web.Request;
import clinic.web.Response;
import clinic.web.Router;
import java.util.List;
import java.util.Map;

/** Doctors by their departments; an administrator makes new ones. */
public final class DoctorPages {
    private final Store store;

    private record Shown(List<DoctorRow> doctors, List<Department> departments) {}

    public DoctorPages(Store store) {
        this.store = store;
    }

    public void add(Router router) {
        router.on("GET", "/doctors", request -> list())
                .on("POST", "/doctors", this::makeByPage)
                .on("GET", "/api/doctors", request -> Response.json(200, shown().doctors))
                .on("POST", "/api/doctors", request -> Response.json(201, Map.of("id", make(request))));
    }

    private Shown shown() {
        return store.within(manager -> new Shown(new Doctors(manager).all(), new Doctors(manager).departments()));
    }

    private long make(Request request) {
        request.byAdministrator();
        var form = request.form(DoctorForm.class).checked();
        return store.within(manager -> new Doctors(manager).add(form).id());
    }

    private Response makeByPage(Request request) {
        make(request);
        return Response.seeOther("/doctors");
    }

    private Response list() {
        var shown = shown();
        var rows = Html.each(shown.doctors, each -> Html.of("<tr><td>{}</td><td>{}</td><td>floor {}</td></tr>",
                each.name(), each.department(), each.floor()));
        var departments = Html.each(shown.departments,
                each -> Html.of("<option value=\"{}\">{}</option>", each.code(), each.name()));
        return Response.page("Doctors", Html.of("""
                <table>{}</table><h2>New doctor</h2>
                <form method="post" action="/doctors"><label>Name <input name="name" required></label>
                <label>Department <select name="department">{}</select></label><button>Save</button></form>""",
                rows, departments));
    }
}
