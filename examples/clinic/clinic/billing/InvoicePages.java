package clinic.billing;

import clinic.common.Page;
import clinic.common.Store;
import clinic.web.Html;
import clinic.web.Request;
import clinic.web.Response;
import clinic.web.Router;
import java.time.LocalDate;
import java.util.List;
import java.util.stream.IntStream;

/** Invoices: issued, shown and paid; and what they come to. */
public final class InvoicePages {
    private static final int LINES = 5;
    private final Store store;

    private record Asked(Integer year, Integer page) {
        Asked {
            year = year == null || year < 1 || year > 9999 ? LocalDate.now().getYear() : year;
            page = page == null ? 1 : Math.max(1, Math.min(page, 1_000_000));
        }
    }

    public InvoicePages(Store store) {
        this.store = store;
    }

    public void add(Router router) {
        router.on("GET", "/invoices", this::list)
                .on("GET", "/invoices/{id}", request -> show(of(request)))
                .on("POST", "/invoices/{id}/pay", request -> show(pay(request)))
                .on("GET", "/appointments/{id}/invoice", InvoicePages::inputs)
                .on("POST", "/appointments/{id}/invoice", request -> Response.seeOther("/invoices/" + issue(request).id()))
                .on("GET", "/reports/turnover", this::report)
                .on("GET", "/api/invoices", request -> Response.json(200, all(request)))
                .on("GET", "/api/invoices/{id}", request -> Response.json(200, of(request)))
                .on("POST", "/api/appointments/{id}/invoice", request -> Response.json(201, issue(request)))
                .on("POST", "/api/invoices/{id}/pay", request -> Response.json(200, pay(request)))
                .on("GET", "/api/reports/turnover", request -> Response.json(200, turnover(request)));
    }

    private InvoiceView of(Request request) {
        return store.within(manager -> new Invoices(manager).of(request.id()));
    }

    private InvoiceView issue(Request request) {
        var form = request.form(InvoiceForm.class).checked();
        return store.within(manager -> new Invoices(manager).issue(request.id(), form));
    }

    private InvoiceView pay(Request request) {
        return store.within(manager -> new Invoices(manager).pay(request.id(), LocalDate.now()));
    }

    private List<DoctorMonth> turnover(Request request) {
        return store.within(manager -> new Invoices(manager).turnover(request.asked(Asked.class).year()));
    }

    private Page<InvoiceView> all(Request request) {
        return store.within(manager -> new Invoices(manager).all(request.asked(Asked.class).page()));
    }

    private Response list(Request request) {
        var page = all(request);
        var rows = Html.each(page.rows(), each -> Html.of("""
                <tr><td><a href="/invoices/{}">{}</a></td><td>{}</td><td>{}</td><td>{}</td></tr>""",
                each.id(), each.id(), each.issued(), each.patient(), each.total()));
        var more = page.number() >= page.pages() ? Html.NOTHING
                : Html.of("<form><button name=\"page\" value=\"{}\">before these</button></form>", page.number() + 1);
        return Response.page("Invoices", Html.of("<table>{}</table>{}", rows, more));
    }

    private static Response show(InvoiceView invoice) {
        var lines = Html.each(invoice.lines(), each -> Html.of("<tr><td>{}</td><td>{}</td><td>{}</td></tr>",
                each.quantity(), each.text(), each.price()));
        var paid = invoice.paid() != null ? Html.of("<p>Paid on {}</p>", invoice.paid())
                : Html.of("<form method=\"post\" action=\"/invoices/{}/pay\"><button>It is paid</button></form>", invoice.id());
        return Response.page("Invoice " + invoice.id(), Html.of("""
                <p>{}, issued on {} by {}</p><table>{}<tr><th></th><th>Sum</th><th>{}</th></tr></table>{}""",
                invoice.patient(), invoice.issued(), invoice.doctor(), lines, invoice.total(), paid));
    }

    private static Response inputs(Request request) {
        var lines = Html.each(IntStream.range(0, LINES).boxed().toList(), at -> Html.of("""
                <tr><td><input name="lines.{}.quantity" size="4"></td><td><input name="lines.{}.text"></td>
                <td><input name="lines.{}.price" size="8"></td></tr>""", at, at, at));
        return Response.page("New invoice", Html.of("""
                <form method="post" action="{}"><table><tr><th>Quantity</th><th>Text</th><th>Price</th></tr>{}</table>
                <button>Issue</button></form>""", request.path(), lines));
    }

    private Response report(Request request) {
        var rows = Html.each(turnover(request), each -> Html.of("<tr><td>{}</td><td>{}</td><td>{}</td></tr>",
                each.doctor(), each.month(), each.total()));
        return Response.page("Turnover of " + request.asked(Asked.class).year(), Html.of("""
                <form><input name="year" size="5"><button>Show</button></form>
                <table><tr><th>Doctor</th><th>Month</th><th>Sum</th></tr>{}</table>""", rows));
    }
}
