import java.io.BufferedReader;
import java.io.IOException;
import java.io.InputStreamReader;
import java.net.InetAddress;
import java.net.InetSocketAddress;
import java.net.StandardSocketOptions;
import java.nio.ByteBuffer;
import java.nio.channels.CancelledKeyException;
import java.nio.channels.ClosedByInterruptException;
import java.nio.channels.ClosedChannelException;
import java.nio.channels.ClosedSelectorException;
import java.nio.channels.DatagramChannel;
import java.nio.channels.IllegalBlockingModeException;
import java.nio.channels.Pipe;
import java.nio.channels.SelectableChannel;
import java.nio.channels.SelectionKey;
import java.nio.channels.Selector;
import java.nio.channels.ServerSocketChannel;
import java.nio.channels.SocketChannel;
import java.nio.file.Files;
import java.nio.file.Path;
import java.util.ArrayList;
import java.util.HashMap;
import java.util.HashSet;
import java.util.List;
import java.util.Map;
import java.util.Random;
import java.util.Set;
import java.util.TreeMap;
import java.util.concurrent.Callable;

/**
 * Runs a script of nio on the selectors of the JVM that runs it, with real pipes, sockets and threads, and prints the
 * history text, for {@code nio check}.
 *
 * <p>Each caller of the script is a thread. What a line {@code told} tells is made true before the real selection looks,
 * and false again after it. A line that a JVM can't be made to answer, or that is known to be answered otherwise, ends
 * the run with a comment that says why.
 *
 * <p>{@code java OnJvm.java < SCRIPT}, or {@code java OnJvm.java COUNT SEED FOLDER} for random scripts, whose histories
 * go to the folder.
 */
public class OnJvm {
    public static void main(String[] words) throws Exception {
        if (words.length == 0) {
            List<String> lines = new ArrayList<>();
            BufferedReader input = new BufferedReader(new InputStreamReader(System.in));
            for (String line = input.readLine(); line != null; line = input.readLine()) {
                lines.add(line);
            }
            System.out.print(new Run(lines).history());
        } else {
            Random random = new Random(Long.parseLong(words[1]));
            for (int number = 0; number < Integer.parseInt(words[0]); number++) {
                List<String> script = new RandomScript(random).lines();
                Path folder = Path.of(words[2]);
                Files.writeString(folder.resolve(number + ".nio"), String.join("\n", script) + "\n");
                Files.writeString(folder.resolve(number + ".history"), new Run(script).history());
            }
        }
        System.exit(0);
    }
}

/** Why a script is not run on: a JVM can't be made to answer the line, or is known to answer it otherwise. */
class Stop extends RuntimeException {
    Stop(String why) {
        super(why);
    }
}

/** A thread that makes a caller's calls, one at a time. Its interrupt status is the caller's. */
class Caller extends Thread {
    private Callable<Object> call;
    private Object answer;
    private Exception failure;
    private boolean isInterrupted;

    Caller(int number) {
        super("t" + number);
        setDaemon(true);
        start();
    }

    @Override
    public void run() {
        while (true) {
            Callable<Object> next = next();
            Object found = null;
            Exception thrown = null;
            try {
                found = next.call();
            } catch (Exception exception) {
                thrown = exception;
            }
            synchronized (this) {
                call = null;
                answer = found;
                failure = thrown;
                isInterrupted |= Thread.interrupted();
                notifyAll();
            }
        }
    }

    // Waits for a call. An interrupt that comes meanwhile is kept for that call.
    private synchronized Callable<Object> next() {
        while (call == null) {
            try {
                wait();
            } catch (InterruptedException exception) {
                isInterrupted = true;
            }
        }
        if (isInterrupted) {
            isInterrupted = false;
            interrupt();
        }
        return call;
    }

    synchronized boolean isCalling() {
        return call != null;
    }

    synchronized void begin(Callable<Object> next) {
        call = next;
        notifyAll();
    }

    /** Whether the call that was begun has ended; waits for that for so many milliseconds. */
    synchronized boolean hasEnded(long ms) throws InterruptedException {
        long end = System.nanoTime() + ms * 1_000_000;
        while (call != null) {
            long left = (end - System.nanoTime()) / 1_000_000;
            if (left <= 0) {
                return false;
            }
            wait(left);
        }
        return true;
    }

    /** What the call that has ended answered. */
    synchronized Object answer() throws Exception {
        if (failure != null) {
            throw failure;
        }
        return answer;
    }

    Object make(Callable<Object> next) throws Exception {
        if (isCalling()) {
            throw new Stop("the caller's thread is in a call already");
        }
        begin(next);
        if (!hasEnded(2000)) {
            throw new Stop("the call waits");
        }
        return answer();
    }

    /** Interrupts the caller, in a call or between two. */
    synchronized void interruptCaller() {
        if (call == null) {
            isInterrupted = true;
        } else {
            interrupt();
        }
    }

    synchronized boolean isToBeInterrupted() {
        return isInterrupted;
    }
}

/** A channel of the script, and what makes it ready. */
abstract class Channel {
    static final byte[] BLOCK = new byte[65536];

    SelectableChannel real;

    /** Makes the channel ready for these operations. */
    abstract void feed(int ops) throws IOException;

    /** Takes back what {@code feed} did. */
    abstract void clear() throws IOException;

    /** The operations that the channel is always ready for. */
    int always() {
        return 0;
    }

    static InetSocketAddress loopback() {
        return new InetSocketAddress(InetAddress.getLoopbackAddress(), 0);
    }

    static Channel open(String kind) throws IOException {
        switch (kind) {
            case "source":
                return new Source(Pipe.open());
            case "sink":
                return new Sink(Pipe.open());
            case "stream":
                return new Stream();
            case "listener":
                return new Listener();
            case "datagram":
                return new Datagram();
            default:
                throw new Stop("unknown kind of channel");
        }
    }
}

class Source extends Channel {
    private final Pipe.SinkChannel feeds;
    private boolean isFed;

    Source(Pipe pipe) {
        real = pipe.source();
        feeds = pipe.sink();
    }

    @Override
    void feed(int ops) throws IOException {
        if ((ops & SelectionKey.OP_READ) != 0 && real.isOpen()) {
            feeds.write(ByteBuffer.wrap(BLOCK, 0, 1));
            isFed = true;
        }
    }

    @Override
    void clear() throws IOException {
        if (isFed && real.isOpen()) {
            ((Pipe.SourceChannel) real).read(ByteBuffer.allocate(1));
        }
        isFed = false;
    }
}

class Sink extends Channel {
    private final Pipe.SourceChannel drains;

    Sink(Pipe pipe) throws IOException {
        real = pipe.sink();
        drains = pipe.source();
        drains.configureBlocking(false);
        real.configureBlocking(false);
        clear();
        real.configureBlocking(true);
    }

    @Override
    void feed(int ops) throws IOException {
        if ((ops & SelectionKey.OP_WRITE) != 0) {
            while (drains.read(ByteBuffer.allocate(65536)) > 0) {
            }
        }
    }

    @Override
    void clear() throws IOException {
        while (real.isOpen() && !real.isBlocking() && ((Pipe.SinkChannel) real).write(ByteBuffer.wrap(BLOCK)) > 0) {
        }
    }
}

class Stream extends Channel {
    private final SocketChannel peer;
    private boolean isFed;

    Stream() throws IOException {
        try (ServerSocketChannel listener = ServerSocketChannel.open()) {
            listener.setOption(StandardSocketOptions.SO_RCVBUF, 4096);
            listener.bind(loopback());
            SocketChannel stream = SocketChannel.open();
            stream.setOption(StandardSocketOptions.SO_SNDBUF, 4096);
            stream.connect(listener.getLocalAddress());
            peer = listener.accept();
            peer.configureBlocking(false);
            real = stream;
        }
        real.configureBlocking(false);
        clear();
        real.configureBlocking(true);
    }

    @Override
    void feed(int ops) throws IOException {
        if ((ops & SelectionKey.OP_READ) != 0 && real.isOpen()) {
            peer.write(ByteBuffer.wrap(BLOCK, 0, 1));
            isFed = true;
        }
        if ((ops & SelectionKey.OP_WRITE) != 0) {
            for (int turn = 0; turn < 20; turn++) {
                while (peer.read(ByteBuffer.allocate(65536)) > 0) {
                }
                pause();
            }
        }
    }

    @Override
    void clear() throws IOException {
        if (!real.isOpen() || real.isBlocking()) {
            return;
        }
        SocketChannel stream = (SocketChannel) real;
        if (isFed) {
            stream.read(ByteBuffer.allocate(1));
            isFed = false;
        }
        // what the peer took frees places until it is acknowledged, which a system may put off for 40 ms
        for (int quiet = 0, turn = 0; quiet < 60 && turn < 600; turn++) {
            quiet = stream.write(ByteBuffer.wrap(BLOCK)) > 0 ? 0 : quiet + 1;
            pause();
        }
    }

    private static void pause() {
        try {
            Thread.sleep(1);
        } catch (InterruptedException exception) {
            Thread.currentThread().interrupt();
        }
    }
}

class Listener extends Channel {
    private SocketChannel client;

    Listener() throws IOException {
        real = ServerSocketChannel.open().bind(loopback());
    }

    @Override
    void feed(int ops) throws IOException {
        if ((ops & SelectionKey.OP_ACCEPT) != 0 && real.isOpen()) {
            client = SocketChannel.open(((ServerSocketChannel) real).getLocalAddress());
        }
    }

    @Override
    void clear() throws IOException {
        if (client == null) {
            return;
        }
        if (real.isOpen()) {
            SocketChannel accepted = ((ServerSocketChannel) real).accept();
            if (accepted != null) {
                accepted.close();
            }
        }
        client.close();
        client = null;
    }
}

class Datagram extends Channel {
    private final DatagramChannel peer = DatagramChannel.open();
    private boolean isFed;

    Datagram() throws IOException {
        real = DatagramChannel.open().bind(loopback());
    }

    @Override
    int always() {
        return SelectionKey.OP_WRITE;
    }

    @Override
    void feed(int ops) throws IOException {
        if ((ops & SelectionKey.OP_READ) != 0 && real.isOpen()) {
            peer.send(ByteBuffer.wrap(BLOCK, 0, 1), ((DatagramChannel) real).getLocalAddress());
            isFed = true;
        }
    }

    @Override
    void clear() throws IOException {
        if (isFed && real.isOpen()) {
            ((DatagramChannel) real).receive(ByteBuffer.allocate(1));
        }
        isFed = false;
    }
}

/** An end of a pipe that a line {@code pipe} opened: bytes come and go by the script's own calls. */
class End extends Channel {
    final PipeState pipe;

    End(SelectableChannel end, PipeState state) {
        real = end;
        pipe = state;
    }

    @Override
    void feed(int ops) {
        throw new Stop("a pipe's end is ready as its bytes are, not as a line says");
    }

    @Override
    void clear() {}

    @Override
    int always() {
        return pipe.source == real ? (pipe.waiting > 0 ? SelectionKey.OP_READ : 0) : SelectionKey.OP_WRITE;
    }
}

class PipeState {
    SelectableChannel source;
    int reader;
    int writer;
    int waiting;
    boolean isSealed;
}

/** A key of the script: its index, its serial and the real key. */
class Key {
    final int index;
    final long serial;
    final SelectionKey real;
    final Channel channel;
    boolean isRemoved;
    boolean isChanged;
    boolean isNew;

    Key(int index, long serial, SelectionKey real, Channel channel) {
        this.index = index;
        this.serial = serial;
        this.real = real;
        this.channel = channel;
    }

    String name() {
        return serial == 0 ? "k" + index : "k" + index + "." + serial;
    }
}

/** A selector of the script, with its keys, and the selection or closing that is in progress. */
class Chosen {
    final Selector real;
    final Set<SelectionKey> selected;
    final TreeMap<Integer, Key> newest = new TreeMap<>();
    final Map<String, Key> named = new HashMap<>();
    Selection selection;
    int closer = -1;
    boolean isWoken;
    boolean isEnded;

    Chosen(Selector real) {
        this.real = real;
        this.selected = real.selectedKeys();
    }

    /** The name that a new key has: the least free index with the next serial, or a new index. */
    Key named(SelectionKey key, Channel channel) {
        for (Key known : named.values()) {
            if (known.real == key) {
                return known;
            }
        }
        int index = newest.size();
        long serial = 0;
        for (Map.Entry<Integer, Key> entry : newest.entrySet()) {
            if (entry.getValue().isRemoved) {
                index = entry.getKey();
                serial = entry.getValue().serial + 1;
                break;
            }
        }
        Key made = new Key(index, serial, key, channel);
        made.isNew = selection != null;
        newest.put(index, made);
        named.put(made.name(), made);
        return made;
    }

    /** Finds which keys a selection has removed. */
    void findRemoved() {
        Set<SelectionKey> left = real.isOpen() ? new HashSet<>(real.keys()) : Set.of();
        for (Key key : newest.values()) {
            key.isRemoved |= !left.contains(key.real);
        }
    }

    String names(Set<SelectionKey> keys) {
        StringBuilder text = new StringBuilder();
        for (Key key : newest.values()) {
            if (keys.contains(key.real)) {
                text.append(text.length() == 0 ? "" : " ").append(key.name());
            }
        }
        return text.length() == 0 ? "none" : text.toString();
    }
}

/** A selection in progress: who selects, how, and whether the real selection has begun. */
class Selection {
    final int caller;
    final String mode;
    final Map<Key, Integer> looked = new HashMap<>();
    boolean hasBegun;
    boolean mayElapse;
    long ms;

    Selection(int caller, String mode) {
        this.caller = caller;
        this.mode = mode;
    }
}

/** One run of a script. */
class Run {
    private static final long PATIENCE = 60;

    private final List<String> lines;
    private final StringBuilder history = new StringBuilder();
    private final Map<Integer, Caller> callers = new HashMap<>();
    private final List<Chosen> selectors = new ArrayList<>();
    private final List<Channel> channels = new ArrayList<>();
    private int at;

    Run(List<String> lines) {
        this.lines = lines;
    }

    String history() throws Exception {
        int number = 0;
        for (at = 0; at < lines.size(); at++) {
            String line = lines.get(at);
            if (line.isEmpty() || line.startsWith("#")) {
                continue;
            }
            try {
                String reply = reply(line.split(" "));
                history.append(++number).append(' ').append(line).append(" -> ").append(reply).append('\n');
            } catch (Stop stop) {
                history.append("# stopped before: ").append(line).append("\n# ").append(stop.getMessage()).append('\n');
                break;
            }
        }
        close();
        return history.toString();
    }

    // Ends what is in progress and closes all.
    private void close() throws IOException {
        for (Chosen chosen : selectors) {
            chosen.real.wakeup();
        }
        for (Channel channel : channels) {
            channel.real.close();
        }
    }

    private Caller caller(int number) {
        return callers.computeIfAbsent(number, Caller::new);
    }

    private static int number(String name, char letter) {
        if (name.charAt(0) != letter || name.contains(".")) {
            throw new Stop("no name of this kind");
        }
        return Integer.parseInt(name.substring(1));
    }

    private String reply(String[] words) throws Exception {
        int me = number(words[0], 't');
        Caller caller = caller(me);
        switch (words[1]) {
            case "selector":
                selectors.add(new Chosen(Selector.open()));
                return "s" + (selectors.size() - 1);
            case "channel":
                checkNumbers();
                channels.add(Channel.open(words[2]));
                return "c" + (channels.size() - 1);
            case "pipe":
                return openPipe(me, number(words[2], 't'));
            case "blocking":
            case "is-blocking":
            case "is-open":
            case "is-registered":
            case "closec":
            case "pread":
            case "pwrite":
                return onChannel(me, caller, words);
            case "key-for":
                return keyFor(words);
            case "register":
                return register(caller, words);
            case "interrupt":
                caller(number(words[2], 't')).interruptCaller();
                return "ok";
            case "interrupted":
                return yes((Boolean) caller.make(Thread::interrupted));
            case "begin":
            case "told":
            case "wakeup":
            case "close":
            case "close-end":
            case "keys":
            case "selected":
                return onSelector(me, caller, words);
            case "valid":
            case "interest":
            case "ready":
            case "iset":
            case "ior":
            case "iand":
            case "cancel":
            case "unselect":
            case "attach":
            case "attachment":
                return onKey(caller, words);
            default:
                throw new Stop("a JVM can't be made to answer this call");
        }
    }

    private static String yes(boolean is) {
        return is ? "yes" : "no";
    }

    // Ends the run where no number of a channel is left: numbers don't come back to channels here.
    private void checkNumbers() {
        if (channels.size() >= 1023) {
            throw new Stop("a JVM has no numbers of channels that come back");
        }
    }

    private String openPipe(int reader, int writer) throws IOException {
        checkNumbers();
        Pipe pipe = Pipe.open();
        PipeState state = new PipeState();
        state.source = pipe.source();
        state.reader = reader;
        state.writer = writer;
        channels.add(new End(pipe.source(), state));
        channels.add(new End(pipe.sink(), state));
        return "c" + (channels.size() - 2) + " c" + (channels.size() - 1);
    }

    private String onChannel(int me, Caller caller, String[] words) throws Exception {
        int number = number(words[2], 'c');
        if (number >= channels.size()) {
            return "no-channel";
        }
        Channel channel = channels.get(number);
        SelectableChannel real = channel.real;
        switch (words[1]) {
            case "is-blocking":
                return yes(real.isBlocking());
            case "is-open":
                return yes(real.isOpen());
            case "is-registered":
                return yes(real.isRegistered());
            case "blocking":
                return setBlocking(caller, channel, words[3].equals("on"));
            case "closec":
                return closeChannel(me, channel);
            default:
                if (!(channel instanceof End)) {
                    throw new Stop("no end of a pipe");
                }
                return onPipe(me, caller, (End) channel, words);
        }
    }

    private String setBlocking(Caller caller, Channel channel, boolean isOn) throws Exception {
        boolean isLive = false;
        boolean isListed = false;
        for (Chosen chosen : selectors) {
            for (Key key : chosen.newest.values()) {
                isListed |= key.channel == channel && !key.isRemoved;
                isLive |= key.channel == channel && key.real.isValid();
            }
        }
        if (isOn && isListed && !isLive && channel.real.isOpen()) {
            throw new Stop("known: back to blocking mode while only cancelled keys are left is refused here alone");
        }
        try {
            caller.make(() -> channel.real.configureBlocking(isOn));
            return "ok";
        } catch (ClosedChannelException exception) {
            return "closed-channel";
        } catch (IllegalBlockingModeException exception) {
            return "illegal-blocking-mode";
        }
    }

    private String closeChannel(int me, Channel channel) throws IOException {
        if (channel instanceof End) {
            PipeState pipe = ((End) channel).pipe;
            if (pipe.source != channel.real && pipe.writer != me) {
                throw new Stop("known: a sink that another than its owner closes leaves no seal here");
            }
        }
        if (!channel.real.isOpen()) {
            return "already";
        }
        channel.real.close();
        return "ok";
    }

    private String onPipe(int me, Caller caller, End end, String[] words) throws Exception {
        PipeState pipe = end.pipe;
        boolean isRead = words[1].equals("pread");
        boolean isSource = pipe.source == end.real;
        if (isRead != isSource || me != (isSource ? pipe.reader : pipe.writer)) {
            throw new Stop("owners of a pipe's ends are nio's own rule");
        }
        if (isRead) {
            int most = Integer.parseInt(words[3]);
            boolean isInterrupted = caller.isToBeInterrupted();
            if (end.real.isOpen() && end.real.isBlocking() && most > 0 && pipe.waiting == 0 && !pipe.isSealed && !isInterrupted) {
                throw new Stop("the read would wait");
            }
            ByteBuffer into = ByteBuffer.allocate(most);
            return piped(() -> {
                int count = (Integer) caller.make(() -> ((Pipe.SourceChannel) end.real).read(into));
                pipe.waiting -= Math.max(count, 0);
                return count < 0 ? "end" : count == 0 ? "0" : hex(into.array(), count);
            });
        }
        byte[] bytes = bytes(words[3]);
        if (pipe.waiting + bytes.length > 4096) {
            throw new Stop("the system's pipe has room by pages");
        }
        if (bytes.length == 0 && !pipe.source.isOpen()) {
            throw new Stop("known: an empty write into a pipe whose source is closed");
        }
        return piped(() -> {
            int count = (Integer) caller.make(() -> ((Pipe.SinkChannel) end.real).write(ByteBuffer.wrap(bytes)));
            pipe.waiting += count;
            return Integer.toString(count);
        });
    }

    private static String piped(Callable<String> call) throws Exception {
        try {
            return call.call();
        } catch (ClosedByInterruptException exception) {
            return "closed-by-interrupt";
        } catch (ClosedChannelException exception) {
            return "closed-channel";
        } catch (Stop stop) {
            throw stop;
        } catch (IOException exception) {
            return "broken-pipe";
        }
    }

    private static String hex(byte[] bytes, int count) {
        StringBuilder text = new StringBuilder();
        for (int at = 0; at < count; at++) {
            text.append(String.format("%02x", bytes[at]));
        }
        return text.toString();
    }

    private static byte[] bytes(String text) {
        if (text.equals("-")) {
            return new byte[0];
        }
        byte[] bytes = new byte[text.length() / 2];
        for (int at = 0; at < bytes.length; at++) {
            bytes[at] = (byte) Integer.parseInt(text.substring(2 * at, 2 * at + 2), 16);
        }
        return bytes;
    }

    private String keyFor(String[] words) {
        int chan = number(words[2], 'c');
        int sel = number(words[3], 's');
        if (chan >= channels.size()) {
            return "no-channel";
        }
        if (sel >= selectors.size()) {
            return "no-selector";
        }
        Chosen chosen = selectors.get(sel);
        SelectionKey key = channels.get(chan).real.keyFor(chosen.real);
        return key == null ? "none" : chosen.named(key, channels.get(chan)).name();
    }

    private String register(Caller caller, String[] words) throws Exception {
        int sel = number(words[2], 's');
        int chan = number(words[3], 'c');
        if (sel >= selectors.size()) {
            return "no-selector";
        }
        if (chan >= channels.size()) {
            return "no-channel";
        }
        Chosen chosen = selectors.get(sel);
        Channel channel = channels.get(chan);
        checkOpen(chosen);
        Long attachment = words.length > 5 && !words[5].equals("0") ? Long.parseUnsignedLong(words[5]) : null;
        SelectionKey before = chosen.real.isOpen() ? channel.real.keyFor(chosen.real) : null;
        if (before != null && before.isValid() && attachment == null && before.attachment() != null) {
            throw new Stop("known: registering again without an attachment keeps it here");
        }
        if (before != null && !before.isValid() && attachment != null) {
            throw new Stop("known: a registration that is refused for a cancelled key changes nothing here");
        }
        try {
            Object made = caller.make(() -> channel.real.register(chosen.real, Integer.parseInt(words[4]), attachment));
            Key key = chosen.named((SelectionKey) made, channel);
            key.isChanged |= chosen.selection != null;
            return key.name();
        } catch (ClosedChannelException exception) {
            return "closed-channel";
        } catch (IllegalBlockingModeException exception) {
            return "illegal-blocking-mode";
        } catch (CancelledKeyException exception) {
            return "cancelled-key";
        } catch (ClosedSelectorException exception) {
            return "closed-selector";
        } catch (IllegalArgumentException exception) {
            return "illegal-ops";
        }
    }

    // Ends the run where the selector's closing is half done.
    private static void checkOpen(Chosen chosen) {
        if (chosen.closer >= 0 && !chosen.isEnded) {
            throw new Stop("known: between the two halves of a selector's closing a JVM has both behind it");
        }
    }

    private String onKey(Caller caller, String[] words) throws Exception {
        int sel = number(words[2], 's');
        if (sel >= selectors.size()) {
            return "no-selector";
        }
        Chosen chosen = selectors.get(sel);
        Key key = chosen.named.get(words[3]);
        if (key == null) {
            return "no-key";
        }
        checkOpen(chosen);
        if (chosen.newest.get(key.index) != key && (words[1].startsWith("attach"))) {
            throw new Stop("a key whose index has a newer key has no attachment here");
        }
        SelectionKey real = key.real;
        try {
            switch (words[1]) {
                case "valid":
                    return yes(real.isValid());
                case "interest":
                    return Integer.toString(real.interestOps());
                case "ready":
                    return Integer.toString(real.readyOps());
                case "iset":
                    real.interestOps(Integer.parseInt(words[4]));
                    key.isChanged |= chosen.selection != null;
                    return "ok";
                case "ior":
                    key.isChanged |= chosen.selection != null;
                    return Integer.toString(real.interestOpsOr(Integer.parseInt(words[4])));
                case "iand":
                    key.isChanged |= chosen.selection != null;
                    return Integer.toString(real.interestOpsAnd(Integer.parseInt(words[4])));
                case "cancel":
                    real.cancel();
                    return "ok";
                case "unselect":
                    return yes(chosen.selected.remove(real));
                case "attach":
                    long given = Long.parseUnsignedLong(words[4]);
                    return attachment(real.attach(given == 0 ? null : given));
                default:
                    return attachment(real.attachment());
            }
        } catch (CancelledKeyException exception) {
            return "cancelled-key";
        } catch (IllegalArgumentException exception) {
            return "illegal-ops";
        }
    }

    private static String attachment(Object found) {
        return found == null ? "0" : Long.toUnsignedString((Long) found);
    }

    private String onSelector(int me, Caller caller, String[] words) throws Exception {
        int sel = number(words[2], 's');
        if (sel >= selectors.size()) {
            return "no-selector";
        }
        Chosen chosen = selectors.get(sel);
        switch (words[1]) {
            case "begin":
                return begin(me, caller, chosen, words);
            case "told":
                return told(me, caller, chosen, words);
            case "wakeup":
                chosen.real.wakeup();
                chosen.isWoken = true;
                return "ok";
            case "close":
                return close(me, caller, chosen);
            case "close-end":
                return endClosing(me, caller, chosen);
            default:
                if (!chosen.real.isOpen()) {
                    return "closed-selector";
                }
                checkOpen(chosen);
                return chosen.names(words[1].equals("keys") ? chosen.real.keys() : chosen.selected);
        }
    }

    private String close(int me, Caller caller, Chosen chosen) throws Exception {
        if (chosen.closer >= 0) {
            return "already";
        }
        chosen.closer = me;
        Selection selection = chosen.selection;
        if (selection != null && !selection.hasBegun || caller.isCalling()) {
            throw new Stop("the real selection can't be held until its line");
        }
        caller.begin(() -> {
            chosen.real.close();
            return null;
        });
        if (selection == null && !caller.hasEnded(2000)) {
            throw new Stop("the closing waits");
        }
        return "closing";
    }

    private String endClosing(int me, Caller caller, Chosen chosen) throws Exception {
        if (chosen.closer != me || chosen.isEnded) {
            return "not-closing";
        }
        if (chosen.selection != null) {
            return "busy";
        }
        if (!caller.hasEnded(2000)) {
            throw new Stop("the closing waits");
        }
        chosen.isEnded = true;
        chosen.findRemoved();
        return "closed";
    }

    private String begin(int me, Caller caller, Chosen chosen, String[] words) throws Exception {
        Selection selection = new Selection(me, words[3]);
        if (words[3].equals("for")) {
            selection.ms = Long.parseLong(words[4]);
            if (selection.ms < 0) {
                try {
                    caller.make(() -> chosen.real.select(selection.ms));
                } catch (IllegalArgumentException exception) {
                    return "negative-timeout";
                } catch (ClosedSelectorException exception) {
                    return "closed-selector";
                }
            }
        }
        if (chosen.closer >= 0) {
            if (chosen.real.isOpen()) {
                throw new Stop("the closing waits");
            }
            return "closed-selector";
        }
        if (chosen.selection != null) {
            throw new Stop("a JVM waits where somebody selects already");
        }
        for (Key key : chosen.newest.values()) {
            if (key.real.isValid()) {
                selection.looked.put(key, key.real.interestOps());
            }
            key.isChanged = false;
            key.isNew = false;
        }
        if (caller.isCalling()) {
            throw new Stop("the caller's thread is in a call already");
        }
        chosen.selection = selection;
        lookAhead(chosen, selection);
        boolean isAlone = at + 1 < lines.size() && isEnd(lines.get(at + 1).split(" "), me, chosen);
        if (!isAlone) {
            if (words[3].equals("now") || chosen.isWoken || caller.isToBeInterrupted()) {
                throw new Stop("a selection that doesn't wait can't be held between its two halves");
            }
            checkAlways(chosen, Map.of());
            start(caller, chosen, selection);
            if (caller.hasEnded(PATIENCE)) {
                throw new Stop("the real selection ended before its line");
            }
            chosen.findRemoved();
        }
        StringBuilder text = new StringBuilder("looked");
        for (Key key : chosen.newest.values()) {
            if (selection.looked.containsKey(key)) {
                text.append(' ').append(key.name()).append(':').append(selection.looked.get(key));
            }
        }
        return selection.looked.isEmpty() ? "looked none" : text.toString();
    }

    private boolean isEnd(String[] words, int me, Chosen chosen) {
        return words.length > 2 && words[0].equals("t" + me) && words[1].equals("told")
                && words[2].equals("s" + selectors.indexOf(chosen));
    }

    // Whether a line that ends this selection says that its time is over.
    private void lookAhead(Chosen chosen, Selection selection) {
        int count = 0;
        for (int next = at + 1; next < lines.size(); next++) {
            String[] words = lines.get(next).split(" ");
            if (words.length > 2 && words[0].equals("t" + selection.caller) && words[1].equals("begin")
                    && words[2].equals("s" + selectors.indexOf(chosen))) {
                break;
            }
            if (isEnd(words, selection.caller, chosen)) {
                count++;
                if (words.length > 3 && words[3].equals("elapsed")) {
                    selection.mayElapse = true;
                    if (count > 1 && selection.ms > 0) {
                        throw new Stop("time can't be held");
                    }
                    break;
                }
            }
        }
        if (selection.mayElapse && selection.ms > 1000) {
            throw new Stop("this time is too long");
        }
    }

    // Ends the run where a channel is ready for what the line doesn't tell.
    private void checkAlways(Chosen chosen, Map<Key, Integer> told) {
        for (Map.Entry<Key, Integer> entry : chosen.selection.looked.entrySet()) {
            Key key = entry.getKey();
            int always = key.channel.always() & entry.getValue();
            if (key.real.isValid() && (always & ~told.getOrDefault(key, 0)) != 0) {
                throw new Stop("a channel is ready though the line doesn't tell it");
            }
            if (key.channel instanceof Stream && (entry.getValue() & SelectionKey.OP_CONNECT) != 0) {
                throw new Stop("known: connect interest on a connected stream");
            }
        }
    }

    private void start(Caller caller, Chosen chosen, Selection selection) {
        selection.hasBegun = true;
        caller.begin(() -> {
            switch (selection.mode) {
                case "now":
                    return chosen.real.selectNow();
                case "for":
                    return chosen.real.select(selection.mayElapse || selection.ms == 0 ? selection.ms : 60_000);
                default:
                    return chosen.real.select();
            }
        });
    }

    private String told(int me, Caller caller, Chosen chosen, String[] words) throws Exception {
        Selection selection = chosen.selection;
        if (selection == null || selection.caller != me) {
            return "not-selecting";
        }
        Map<Key, Integer> told = new HashMap<>();
        for (int word = 3; word < words.length; word++) {
            if (words[word].equals("elapsed")) {
                continue;
            }
            String[] pair = words[word].split(":");
            Key key = chosen.named.get(pair[0]);
            if (key != null && selection.looked.containsKey(key)) {
                told.merge(key, Integer.parseInt(pair[1]), (one, other) -> one | other);
            }
        }
        checkTold(chosen, selection, told);
        checkAlways(chosen, told);
        boolean wasInterrupted = caller.isToBeInterrupted();
        boolean isOver = chosen.isWoken || wasInterrupted || chosen.closer >= 0;
        if (selection.hasBegun && !told.isEmpty() && caller.hasEnded(isOver ? 10_000 : 0)) {
            throw new Stop("the real selection ended before its line");
        }
        int things = 0;
        for (Map.Entry<Key, Integer> entry : told.entrySet()) {
            things += Integer.bitCount(entry.getValue() & selection.looked.get(entry.getKey()));
        }
        if (selection.hasBegun && things > 1) {
            throw new Stop("a selection that waits already ends with the first thing that is made ready");
        }
        for (Map.Entry<Key, Integer> entry : told.entrySet()) {
            int looked = entry.getValue() & selection.looked.get(entry.getKey());
            int fed = looked & ~entry.getKey().channel.always();
            if (fed != 0) {
                entry.getKey().channel.feed(fed);
            }
        }
        if (!selection.hasBegun) {
            start(caller, chosen, selection);
        }
        boolean isTold = told.entrySet().stream().anyMatch(it -> (it.getValue() & selection.looked.get(it.getKey())) != 0);
        boolean isToEnd = isTold || isOver || selection.mode.equals("now");
        boolean hasEnded = caller.hasEnded(selection.mayElapse ? selection.ms + 1000 : isToEnd ? 10_000 : PATIENCE);
        for (Key key : told.keySet()) {
            key.channel.clear();
        }
        chosen.findRemoved();
        if (!hasEnded) {
            return "again";
        }
        int count = (Integer) caller.answer();
        boolean isClosed = chosen.closer >= 0;
        String why = count > 0 ? "ready" : isClosed ? "closed" : selection.mode.equals("now") ? "now"
                : chosen.isWoken ? "woken" : wasInterrupted || caller.isToBeInterrupted() ? "interrupted"
                : selection.mayElapse ? "elapsed" : "for-no-reason";
        chosen.isWoken = false;
        chosen.selection = null;
        return "selected " + count + " " + why;
    }

    private void checkTold(Chosen chosen, Selection selection, Map<Key, Integer> told) {
        boolean gains = false;
        for (Map.Entry<Key, Integer> entry : told.entrySet()) {
            Key key = entry.getKey();
            int bits = entry.getValue() & selection.looked.get(key);
            if (bits == 0) {
                continue;
            }
            if (!key.real.isValid()) {
                throw new Stop("known: a key that is cancelled while it is selected on is counted here");
            }
            if (key.isChanged) {
                throw new Stop("known: an interest that changes while a selection waits counts from the next one on here");
            }
            gains |= !chosen.selected.contains(key.real) || (bits & ~key.real.readyOps()) != 0;
        }
        boolean tells = told.entrySet().stream().anyMatch(it -> (it.getValue() & selection.looked.get(it.getKey())) != 0);
        if (tells && !gains && !selection.mode.equals("now")) {
            throw new Stop("known: a wait whose only ready keys are selected already goes on here");
        }
    }
}

/** A random script of calls that a JVM can mostly be made to answer. */
class RandomScript {
    private static final String[] KINDS = {"source", "sink", "stream", "listener", "datagram"};
    private static final int[] VALID = {1, 4, 13, 16, 5};

    private final Random random;
    private final List<String> lines = new ArrayList<>();
    private final List<Integer> kinds = new ArrayList<>();
    private int selectors;
    private int keys;

    RandomScript(Random random) {
        this.random = random;
    }

    List<String> lines() {
        add("selector");
        selectors++;
        for (int more = 1 + random.nextInt(3); more > 0; more--) {
            openChannel();
        }
        for (int more = 10 + random.nextInt(25); more > 0; more--) {
            step();
        }
        return lines;
    }

    private void add(String call) {
        lines.add("t" + (1 + random.nextInt(2)) + " " + call);
    }

    private void openChannel() {
        int kind = random.nextInt(KINDS.length);
        add("channel " + KINDS[kind]);
        kinds.add(kind);
        if (random.nextInt(5) > 0) {
            add("blocking c" + (kinds.size() - 1) + " off");
            register(kinds.size() - 1, random.nextInt(5) > 0);
        }
    }

    private String selector() {
        return "s" + random.nextInt(selectors + (random.nextInt(30) == 0 ? 1 : 0));
    }

    private String key() {
        String name = "k" + random.nextInt(keys + 1);
        return random.nextInt(6) == 0 ? name + ".1" : name;
    }

    private int ops(int chan, boolean isValid) {
        int kind = kinds.get(chan);
        // a stream is connected, and a datagram channel is always ready for writing
        int most = VALID[kind] & (random.nextInt(8) == 0 ? 255 : KINDS[kind].equals("datagram") ? 1 : ~8);
        int ops = isValid ? most & (1 + random.nextInt(31)) : 1 << random.nextInt(6);
        return ops & 255;
    }

    private void register(int chan, boolean isValid) {
        String attachment = random.nextInt(4) == 0 ? " " + random.nextInt(9) : "";
        add("register " + selector() + " c" + chan + " " + ops(chan, isValid) + attachment);
        keys++;
    }

    private void select() {
        int me = 1 + random.nextInt(2);
        String sel = selector();
        String mode = new String[] {"now", "wait", "for 5", "for 0", "for -1"}[Math.min(random.nextInt(9) / 2, 4)];
        lines.add("t" + me + " begin " + sel + " " + mode);
        for (int between = Math.max(random.nextInt(6) - 3, 0); between > 0; between--) {
            onKeys();
        }
        StringBuilder told = new StringBuilder("t" + me + " told " + sel);
        if (mode.equals("for 5") && random.nextBoolean()) {
            told.append(" elapsed");
        }
        for (int key = 0; key < keys; key++) {
            if (random.nextInt(3) == 0) {
                told.append(" k").append(key).append(':').append(new int[] {1, 4, 5, 16}[random.nextInt(4)]);
            }
        }
        lines.add(told.toString());
        if (random.nextInt(4) > 0) {
            add("wakeup " + sel);
            lines.add("t" + me + " told " + sel);
        }
        if (random.nextInt(3) == 0) {
            add("unselect " + sel + " " + key());
        }
    }

    private void onKeys() {
        String sel = selector();
        String key = key();
        switch (random.nextInt(12)) {
            case 0:
                add("cancel " + sel + " " + key);
                break;
            case 1:
                add("iset " + sel + " " + key + " " + (1 << random.nextInt(5)));
                break;
            case 2:
                add("ior " + sel + " " + key + " " + (1 << random.nextInt(5)));
                break;
            case 3:
                add("iand " + sel + " " + key + " " + random.nextInt(32));
                break;
            case 4:
                add("attach " + sel + " " + key + " " + random.nextInt(5));
                break;
            case 5:
                add("attachment " + sel + " " + key);
                break;
            case 6:
                add("interest " + sel + " " + key);
                break;
            case 7:
                add("ready " + sel + " " + key);
                break;
            case 8:
                add("valid " + sel + " " + key);
                break;
            case 9:
                add("keys " + sel);
                break;
            case 10:
                add("selected " + sel);
                break;
            default:
                add("wakeup " + sel);
                break;
        }
    }

    private void step() {
        int chan = random.nextInt(kinds.size());
        switch (random.nextInt(16)) {
            case 0:
                openChannel();
                break;
            case 1:
            case 2:
                register(chan, random.nextInt(6) > 0);
                break;
            case 3:
                add("blocking c" + chan + (random.nextBoolean() ? " on" : " off"));
                break;
            case 4:
                add(new String[] {"is-open c", "is-registered c", "is-blocking c"}[random.nextInt(3)] + chan);
                break;
            case 5:
                add("key-for c" + chan + " " + selector());
                break;
            case 6:
                if (random.nextInt(3) == 0) {
                    add("closec c" + chan);
                }
                break;
            case 7:
                if (random.nextInt(3) == 0) {
                    add("interrupt t" + (1 + random.nextInt(2)));
                }
                add("interrupted");
                break;
            case 8:
                if (random.nextInt(8) == 0) {
                    int me = 1 + random.nextInt(2);
                    lines.add("t" + me + " close s0");
                    lines.add("t" + me + " close-end s0");
                }
                break;
            case 9:
            case 10:
            case 11:
                select();
                break;
            default:
                onKeys();
                break;
        }
    }
}
