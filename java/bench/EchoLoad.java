import java.io.IOException;
import java.net.InetAddress;
import java.net.InetSocketAddress;
import java.nio.ByteBuffer;
import java.nio.channels.SelectionKey;
import java.nio.channels.Selector;
import java.nio.channels.SocketChannel;
import java.time.Duration;
import java.util.ArrayList;
import java.util.List;
import java.util.Locale;

/**
 * Loads echo servers in turns: {@code java EchoLoad.java BUSY IDLE SECONDS ROUNDS PORT PROCESS [PORT PROCESS]}. Each of
 * the busy connections sends 64 bytes, reads them back, and sends them again; the idle ones send nothing. Of each server
 * it writes how many round trips there were in a second, in the best of so many rounds, and how many microseconds of
 * processor time the server's process took for one, over all rounds; then the ratios of the second server's and the
 * first's. It is run on the JDK's selectors, whichever the servers are on.
 */
public class EchoLoad {
    private static final int SIZE = 64;

    private final Selector selector = Selector.open();
    private final ProcessHandle process;
    private double best;
    private long trips;
    private Duration used = Duration.ZERO;

    /** Connects to the server of this port. */
    private EchoLoad(int port, long process, int busy, int idle) throws IOException {
        this.process = ProcessHandle.of(process).orElseThrow();
        List<SocketChannel> links = new ArrayList<>();
        for (int i = 0; i < idle + busy; i++) {
            links.add(SocketChannel.open(new InetSocketAddress(InetAddress.getLoopbackAddress(), port)));
        }
        for (SocketChannel link : links.subList(idle, idle + busy)) {
            link.configureBlocking(false);
            link.register(selector, SelectionKey.OP_READ, ByteBuffer.allocateDirect(SIZE));
        }
    }

    public static void main(String[] words) throws IOException {
        double seconds = Double.parseDouble(words[2]);
        int rounds = Integer.parseInt(words[3]);
        List<EchoLoad> loads = new ArrayList<>();
        for (int i = 4; i + 1 < words.length; i += 2) {
            int busy = Integer.parseInt(words[0]);
            int idle = Integer.parseInt(words[1]);
            loads.add(new EchoLoad(Integer.parseInt(words[i]), Long.parseLong(words[i + 1]), busy, idle));
        }
        for (EchoLoad load : loads) {
            load.run(3);
            load.forget();
        }
        for (int round = 0; round < rounds; round++) {
            for (EchoLoad load : loads) {
                load.run(seconds);
            }
        }
        loads.forEach(load -> System.out.printf(Locale.ROOT, "%7.0f a second %6.2f us%n", load.best, load.cost()));
        EchoLoad first = loads.get(0);
        for (EchoLoad load : loads.subList(1, loads.size())) {
            System.out.printf(Locale.ROOT, "%7.2f %14.2f%n", load.best / first.best, load.cost() / first.cost());
        }
        System.exit(0);
    }

    /** Starts anew, after the server's code was compiled. */
    private void forget() {
        best = 0;
        trips = 0;
        used = Duration.ZERO;
    }

    private double cost() {
        return used.toNanos() / 1e3 / trips;
    }

    /** Each connection sends, and answers what comes; at the end all is awaited that is on the way. */
    private void run(double seconds) throws IOException {
        Duration before = process.info().totalCpuDuration().orElseThrow();
        long start = System.nanoTime();
        long made = 0;
        int under = 0;
        for (SelectionKey key : selector.keys()) {
            send(key);
            under++;
        }
        double passed = 0;
        while (under > 0) {
            selector.select();
            for (SelectionKey key : selector.selectedKeys()) {
                if (!isBack(key)) {
                    continue;
                }
                made++;
                if (passed < seconds) {
                    send(key);
                } else {
                    under--;
                }
            }
            selector.selectedKeys().clear();
            passed = (System.nanoTime() - start) / 1e9;
        }
        best = Math.max(best, made / passed);
        trips += made;
        used = used.plus(process.info().totalCpuDuration().orElseThrow()).minus(before);
    }

    private static void send(SelectionKey key) throws IOException {
        ByteBuffer buffer = (ByteBuffer) key.attachment();
        buffer.clear();
        ((SocketChannel) key.channel()).write(buffer);
        buffer.clear();
    }

    /** Reads. Answers whether all is back. */
    private static boolean isBack(SelectionKey key) throws IOException {
        ByteBuffer buffer = (ByteBuffer) key.attachment();
        if (((SocketChannel) key.channel()).read(buffer) < 0) {
            throw new IOException("the server closed a connection");
        }
        return !buffer.hasRemaining();
    }
}
