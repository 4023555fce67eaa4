import java.io.IOException;
import java.net.InetAddress;
import java.net.InetSocketAddress;
import java.nio.ByteBuffer;
import java.nio.channels.SelectionKey;
import java.nio.channels.Selector;
import java.nio.channels.ServerSocketChannel;
import java.nio.channels.SocketChannel;
import java.util.Iterator;

/**
 * An echo server with one selector. Nothing in it knows of nio: options of the command line alone say whose selectors
 * it runs on.
 *
 * <p>{@code java EchoServer.java [PORT]} runs on the JDK's, {@code java @out/nio.options EchoServer.java [PORT]} on
 * nio's. It serves until it is stopped.
 */
public class EchoServer {
    private static final int ROOM = 4096;

    private final Selector selector;

    private EchoServer(int port) throws IOException {
        selector = Selector.open();
        ServerSocketChannel listener = ServerSocketChannel.open();
        listener.bind(new InetSocketAddress(InetAddress.getLoopbackAddress(), port), 1024);
        listener.configureBlocking(false);
        listener.register(selector, SelectionKey.OP_ACCEPT);
        String provider = selector.provider().getClass().getName();
        System.out.println("port " + listener.socket().getLocalPort() + ", selectors of " + provider);
    }

    public static void main(String[] words) throws IOException {
        new EchoServer(words.length > 0 ? Integer.parseInt(words[0]) : 0).serve();
    }

    private void serve() throws IOException {
        for (;;) {
            selector.select();
            Iterator<SelectionKey> keys = selector.selectedKeys().iterator();
            while (keys.hasNext()) {
                SelectionKey key = keys.next();
                keys.remove();
                if (key.isAcceptable()) {
                    accept((ServerSocketChannel) key.channel());
                } else {
                    try {
                        echo(key);
                    } catch (IOException e) {
                        key.channel().close();
                    }
                }
            }
        }
    }

    private void accept(ServerSocketChannel listener) throws IOException {
        SocketChannel link = listener.accept();
        if (link != null) {
            link.configureBlocking(false);
            link.register(selector, SelectionKey.OP_READ, ByteBuffer.allocateDirect(ROOM));
        }
    }

    /** Reads, and writes what came; what can't be written at once is written before more is read. */
    private static void echo(SelectionKey key) throws IOException {
        SocketChannel link = (SocketChannel) key.channel();
        ByteBuffer buffer = (ByteBuffer) key.attachment();
        if (key.isReadable() && link.read(buffer) < 0) {
            link.close();
            return;
        }
        buffer.flip();
        link.write(buffer);
        int ops = buffer.hasRemaining() ? SelectionKey.OP_WRITE : SelectionKey.OP_READ;
        buffer.compact();
        if (key.interestOps() != ops) {
            key.interestOps(ops);
        }
    }
}
