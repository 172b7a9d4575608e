package clinic.users;

import clinic.common.Store;
import clinic.web.Html;
import clinic.web.Request;
import clinic.web.Response;
import clinic.web.Router;
import java.util.List;

/** Users, for administrators. */
public final class UserPages {
    private final Store store;

    public UserPages(Store store) {
        this.store = store;
    }

    public void add(Router router) {
        router.on("GET", "/users", this::list)
                .on("POST", "/users", this::makeByPage)
                .on("GET", "/api/users", request -> Response.json(200, all(request)))
                .on("POST", "/api/users", request -> Response.json(201, make(request)));
    }

    private List<UserRow> all(Request request) {
        request.byAdministrator();
        return store.within(manager -> new Users(manager).all());
    }

    private UserRow make(Request request) {
        request.byAdministrator();
        var form = request.form(UserForm.class).checked();
        return store.within(manager -> new Users(manager).add(form));
    }

    private Response makeByPage(Request request) {
        make(request);
        return Response.seeOther("/users");
    }

    private Response list(Request request) {
        var rows = Html.each(all(request), each -> Html.of("<tr><td>{}</td><td>{}</td></tr>", each.login(), each.role()));
        var roles = Html.each(List.of(Role.values()), each -> Html.of("<option>{}</option>", each));
        return Response.page("Users", Html.of("""
                <table>{}</table><h2>New user</h2><form method="post" action="/users">
                <label>Login <input name="login" required></label>
                <label>Password <input name="password" type="password" required></label>
                <label>Role <select name="role">{}</select></label><button>Save</button></form>""", rows, roles));
    }
}
