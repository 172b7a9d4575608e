package karzhoul.jpa.context;

import java.util.ArrayList;
import java.util.List;

/** The proxies of a context that nobody has read: what is written to their fields is found before each flush. */
final class UnreadProxies {
    private static final int FEW = 1_000;

    private final Context context;
    private final List<Entry> proxies = new ArrayList<>();
    private int most = FEW;

    UnreadProxies(Context context) {
        this.context = context;
    }

    void add(Entry proxy) {
        if (proxies.size() >= most) {
            proxies.removeIf(each -> !isUnread(each));
            most = Math.max(FEW, 2 * proxies.size());
        }
        proxies.add(proxy);
    }

    /** It is unread again, since its reading failed. */
    void again(Entry proxy) {
        if (!proxies.contains(proxy)) {
            add(proxy);
        }
    }

    private boolean isUnread(Entry entry) {
        return entry.isHollow() && entry.context() == context;
    }

    void forget() {
        if (!proxies.isEmpty()) {
            proxies.clear();
            most = FEW;
        }
    }

    /** Reads those whose fields were written, so that what was written is a change of what their rows have. */
    void readWritten() {
        List<Entry> written = written();
        while (!written.isEmpty()) {
            new Fill(context).written(written);
            written = written();            // PostLoad may write to others
        }
    }

    private List<Entry> written() {
        List<Entry> written = List.of();
        int size = proxies.size();
        int kept = 0;
        for (int i = 0; i < size; i++) {
            Entry entry = proxies.get(i);
            if (isUnread(entry)) {
                proxies.set(kept++, entry);
                if (entry.isManaged() && entry.written() != null) {
                    written = written.isEmpty() ? new ArrayList<>() : written;
                    written.add(entry);
                }
            }
        }
        proxies.subList(kept, size).clear();
        return written;
    }
}
