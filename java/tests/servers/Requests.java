import java.io.BufferedInputStream;
import java.io.EOFException;
import java.io.IOException;
import java.io.InputStream;
import java.net.InetAddress;
import java.net.Socket;
import java.nio.charset.StandardCharsets;
import java.util.ArrayList;
import java.util.Arrays;
import java.util.List;
import java.util.Locale;
import java.util.concurrent.atomic.AtomicInteger;

/**
 * Sends requests to an HTTP server and checks each answer: {@code java Requests PORT COUNT CONNECTIONS}. Each connection
 * is a thread's, by blocking sockets, with no selector. One request is of each number below COUNT. A connection is
 * closed after some requests, and a new one made. It writes how many answers were right, and ends with status 1 where
 * one wasn't, or didn't come.
 */
public class Requests {
    /** A connection has so many requests. */
    private static final int EACH = 500;

    private static final int TIMEOUT_MS = 20_000;

    private final int port;
    private final int count;
    private final AtomicInteger next = new AtomicInteger();
    private final AtomicInteger right = new AtomicInteger();
    private final AtomicInteger connections = new AtomicInteger();

    private Requests(int port, int count) {
        this.port = port;
        this.count = count;
    }

    public static void main(String[] words) throws InterruptedException {
        Requests requests = new Requests(Integer.parseInt(words[0]), Integer.parseInt(words[1]));
        int right = requests.run(Integer.parseInt(words[2]));
        System.exit(right == requests.count ? 0 : 1);
    }

    private int run(int threads) throws InterruptedException {
        long start = System.nanoTime();
        List<Thread> clients = new ArrayList<>();
        for (int i = 0; i < threads; i++) {
            Thread client = new Thread(this::send);
            client.start();
            clients.add(client);
        }
        for (Thread client : clients) {
            client.join();
        }
        double seconds = (System.nanoTime() - start) / 1e9;
        System.out.printf(Locale.ROOT, "%d of %d answers right, over %d connections, %.0f in a second%n",
                right.get(), count, connections.get(), right.get() / seconds);
        return right.get();
    }

    /** Sends requests until all are sent. After a fault it goes on with a new connection. */
    private void send() {
        while (next.get() < count) {
            try (Socket socket = new Socket(InetAddress.getLoopbackAddress(), port)) {
                connections.incrementAndGet();
                socket.setSoTimeout(TIMEOUT_MS);
                socket.setTcpNoDelay(true);
                InputStream input = new BufferedInputStream(socket.getInputStream(), 1 << 16);
                int number;
                for (int i = 0; i < EACH && (number = next.getAndIncrement()) < count; i++) {
                    String request = "GET /" + number + " HTTP/1.1\r\nHost: localhost\r\n\r\n";
                    socket.getOutputStream().write(request.getBytes(StandardCharsets.US_ASCII));
                    check(number, input);
                }
            } catch (IOException e) {
                System.out.println("a request is lost: " + e);
            }
        }
    }

    private void check(int number, InputStream input) throws IOException {
        String head = head(input);
        byte[] expected = Body.of(number);
        int length = length(head);
        if (!head.startsWith("HTTP/1.1 200 ") || length != expected.length) {
            throw new IOException("request " + number + " was answered " + head.trim());
        }
        if (!Arrays.equals(input.readNBytes(length), expected)) {
            throw new IOException("request " + number + " has another body");
        }
        right.incrementAndGet();
    }

    /** The lines up to the empty one. */
    private static String head(InputStream input) throws IOException {
        StringBuilder head = new StringBuilder();
        while (head.length() < 4 || !head.substring(head.length() - 4).equals("\r\n\r\n")) {
            int next = input.read();
            if (next < 0) {
                throw new EOFException("the server closed a connection");
            }
            head.append((char) next);
        }
        return head.toString();
    }

    private static int length(String head) throws IOException {
        for (String line : head.split("\r\n")) {
            if (line.toLowerCase(Locale.ROOT).startsWith("content-length:")) {
                return Integer.parseInt(line.substring("content-length:".length()).trim());
            }
        }
        throw new IOException("an answer with no length");
    }
}
