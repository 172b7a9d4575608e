package karzhoul.jpa.engine;

import jakarta.persistence.PersistenceException;
import java.io.ByteArrayOutputStream;
import java.io.EOFException;
import java.io.IOException;
import java.io.InputStream;
import java.io.OutputStream;
import java.nio.charset.StandardCharsets;
import java.util.List;
import java.util.Map;
import java.util.Set;
import karzhoul.jpa.model.JsonReader;

/**
 * A connection to a server of a store, which has managers and objects of its own numbers. Not for several threads at a
 * time, but for {@link #turn}.
 */
final class ServerConnection implements Transport {
    /** What the server says of a line whose numbers are of before a new run. */
    static final String RESTARTED = "Restarted";

    /** What it says of the connection itself, which it ends then. */
    private static final Set<String> ENDS = Set.of("ProgramEnded", "Closed", "Denied");

    /** How it says, as it ends itself, that it begins nothing: it keeps the connection for what that has open. */
    private static final List<String> BEGINS_NOTHING = List.of("creates no manager", "begins no transaction");

    /** How it says that it handed nothing on of what a program had that ended. */
    private static final String NOT_HANDED_ON = "what was not committed is lost";

    /** How many bytes it says at most of itself, and that is far more than it ever does. */
    private static final int LONGEST = 1 << 24;
    private static final String ANSWERED = "\"ok\":";

    /** What is said of a server whose program has ended, whichever line found it so; and with what one says that has. */
    private static final String PROGRAM = "its program has ended";
    private static final Set<String> ENDED = Set.of(PROGRAM, "the server has ended");

    private final ServerWay way;
    private final ServerAddress address;
    private final Pipe pipe;
    private final InputStream in;
    private final OutputStream out;
    private final Map<String, Object> served;

    /**
     * Connects, and hears what is served.
     *
     * @param until how long the server is waited for
     * @throws NotServed where nobody serves there, or who does doesn't answer in this time
     * @throws PersistenceException where the server doesn't want this one, or this one doesn't trust it
     */
    ServerConnection(ServerWay way, Deadline until) {
        this.way = way;
        address = way.address();
        pipe = way.connected(until);
        in = PipeStreams.in(pipe);
        out = PipeStreams.out(pipe);
        try {
            served = said(ask("{\"serve\":\"hello\"" + way.token() + ",\"mapping\":true}", until));
        } catch (IOException | RuntimeException e) {
            pipe.close();
            throw e instanceof PersistenceException refused ? refused
                : new NotServed((e instanceof Unanswered ? "who serves at " + address + " doesn't answer: "
                    : "nobody serves at " + address + ": ") + e.getMessage() + way.hint(), e);
        }
    }

    /** The reply to a line, while none is under way. */
    private String ask(String line, Deadline until) throws IOException {
        out.write((line + "\n").getBytes(StandardCharsets.UTF_8));
        return reply(until);
    }

    private String reply(Deadline until) throws IOException {
        ByteArrayOutputStream reply = new ByteArrayOutputStream();
        byte[] chunk = new byte[1 << 13];
        for (;;) {
            pipe.awaitAlways(until);
            int count = in.read(chunk);
            if (count < 0) {
                throw new EOFException("it ended the connection");
            } else if (reply.size() > LONGEST) {
                throw new IOException("it says more than a server does");
            }
            reply.write(chunk, 0, count);
            if (chunk[count - 1] == '\n') {
                return reply.toString(StandardCharsets.UTF_8);
            }
        }
    }

    @SuppressWarnings("unchecked")
    private Map<String, Object> said(String reply) {
        Map<String, Object> told;
        try {
            told = (Map<String, Object>) JsonReader.read(reply.split("\n", 2)[0]);
        } catch (RuntimeException e) {
            throw new PersistenceException("who serves at " + address + " is no server of Karzhoul" + way.hint(), e);
        }
        if (told.containsKey("ok")) {
            return (Map<String, Object>) told.get("ok");
        }
        Map<String, Object> error = (Map<String, Object>) told.get("error");
        String words = address + " refuses the connection: " + error.get("name") + "(" + error.get("why") + ")";
        if (error.get("name").equals("Denied")) {
            throw new PersistenceException(words + "; the property " + ServerWay.TOKEN_FILE + " names the file with the server's token");
        }
        throw new NotServed(words, null);
    }

    /** What the server tells of itself: its mapping, the language of queries. */
    Map<String, Object> served() {
        return served;
    }

    /** A manager isn't waited for from now on: a call that waited would keep those of other threads waiting. */
    void waitsNoMore() {
        try {
            said(ask("{\"serve\":\"hello\",\"wait\":0}", Deadline.in(ServerWay.PATIENCE)));
        } catch (IOException e) {
            throw ended(e, false);
        }
    }

    /**
     * Waits until one of the server's managers is kept free for this connection; by another one, so that this one's
     * calls go on.
     *
     * @return null, or why none became free
     * @throws IOException where the server has ended, or the thread was interrupted
     */
    String turn(long millis) throws IOException {
        ServerConnection other = new ServerConnection(way, Deadline.in(Math.max(millis, Pool.LEAST)));
        try {
            String line = "{\"serve\":\"turn\",\"for\":\"" + served.get("key") + "\",\"wait\":" + millis / 1000.0 + "}\n";
            other.out.write(line.getBytes(StandardCharsets.UTF_8));
            Deadline until = Deadline.in(millis + ServerWay.PATIENCE);
            other.pipe.await(until);
            String reply = other.reply(until);
            if (reply.contains(ANSWERED)) {
                return null;
            }
            Map<?, ?> error = (Map<?, ?>) ((Map<?, ?>) JsonReader.read(reply)).get("error");
            return String.valueOf(error.get("why"));
        } finally {
            other.destroy();
        }
    }

    /**
     * Throws where a refusal is of the connection itself, which is of no use any more then.
     *
     * @param isFirst whether it answers the first line of a trip, before which none was done
     */
    static void check(Reply refused, boolean isFirst) throws IOException {
        String why = String.valueOf(refused.why());
        if (!ENDS.contains(refused.error()) || BEGINS_NOTHING.stream().anyMatch(why::endsWith)) {
            return;
        }
        boolean isOfProgram = refused.error().equals("ProgramEnded");
        boolean isHandedOn = !isFirst || isOfProgram && !why.contains(NOT_HANDED_ON);
        throw new Said(isOfProgram ? PROGRAM : why.split(": ", 2)[0], isHandedOn);        // other threads hear of it too
    }

    /** What is raised where numbers are of before a new run of the server. */
    ProgramEnded restarted(String why) {
        return new ProgramEnded("the server at " + address + " has begun a new run", " (" + why + ")",
            "the next use of the entity manager finds its objects again", false, null);
    }

    /** The server has said of a line why it ends the connection. */
    static final class Said extends IOException {
        private static final long serialVersionUID = 1;

        private final boolean isHandedOn;

        /** @param isHandedOn whether the program may have got the line */
        Said(String why, boolean isHandedOn) {
            super(why);
            this.isHandedOn = isHandedOn;
        }
    }

    @Override
    public OutputStream out() {
        return out;
    }

    @Override
    public InputStream in() {
        return in;
    }

    @Override
    public boolean isOpen() {
        return pipe.isQuiet();
    }

    @Override
    public long pid() {
        return 0;
    }

    /** One sentence, however the end is met: a socket doesn't always hand on the server's last words, which the cause has. */
    @Override
    public ProgramEnded ended(IOException cause, boolean isAsked) {
        String why = cause instanceof Said said && !ENDED.contains(said.getMessage()) ? " (" + said.getMessage() + ")" : "";
        return new ProgramEnded("the connection to " + address + " has ended", why,
            "the next entity manager connects again", isAsked && !(cause instanceof Said said && !said.isHandedOn), cause);
    }

    @Override
    public void close() {
        pipe.close();
    }

    @Override
    public void destroy() {
        pipe.close();
    }
}
