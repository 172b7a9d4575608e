package clinic.documents;

import clinic.common.Store;
import clinic.web.Body;
import clinic.web.Request;
import clinic.web.Response;
import clinic.web.Router;

/** Documents of patients: uploaded, downloaded and deleted. */
public final class DocumentPages {
    private final Store store;

    public DocumentPages(Store store) {
        this.store = store;
    }

    public void add(Router router) {
        router.on("POST", "/patients/{id}/documents", this::uploadByPage)
                .on("GET", "/documents/{id}", this::download)
                .on("POST", "/documents/{id}/delete", this::deleteByPage)
                .on("GET", "/api/patients/{id}/documents", request -> Response.json(200,
                        store.within(manager -> new Documents(manager).of(request.id()))))
                .on("POST", "/api/patients/{id}/documents", request -> Response.json(201, upload(request,
                        new Body.File(request.asked("name", ""), request.body().mediaType(), request.body().bytes()))))
                .on("GET", "/api/documents/{id}", this::download)
                .on("DELETE", "/api/documents/{id}", request -> {
                    delete(request);
                    return Response.nothing();
                });
    }

    private DocumentRow upload(Request request, Body.File file) {
        return store.within(manager ->
                new Documents(manager).add(request.id(), file.name(), file.type(), file.content()));
    }

    private Response download(Request request) {
        var document = store.within(manager -> new Documents(manager).download(request.id()));
        return Response.file(document.name(), document.type(), document.content());
    }

    private void delete(Request request) {
        store.within(manager -> {
            new Documents(manager).delete(request.id());
            return null;
        });
    }

    private Response uploadByPage(Request request) {
        upload(request, request.body().file());
        return Response.seeOther("/patients/" + request.id());
    }

    private Response deleteByPage(Request request) {
        delete(request);
        return Response.seeOther("/patients");
    }
}
