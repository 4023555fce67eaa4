package nio.provider;

import java.nio.channels.CancelledKeyException;
import java.nio.channels.SelectableChannel;
import java.nio.channels.SelectionKey;
import java.nio.channels.Selector;
import java.nio.channels.SocketChannel;
import java.nio.channels.spi.AbstractSelectionKey;
import java.util.Collection;
import sun.nio.ch.Net;
import sun.nio.ch.SelChImpl;

/**
 * A key of a table, by its index and serial there. Whether it is valid and what is attached are fields of Java's: these
 * methods are final there. All else is the table's.
 */
final class NioKey extends AbstractSelectionKey {
    /** The bits that a set of operations of the table has. */
    private static final int OPS = 0xff;

    private final NioSelector selector;
    private final SelChImpl channel;
    private final Table table;
    private final int number;
    private final int index;
    private final int serial;

    /** The table's ready set: selections alone change it. */
    private volatile int ready;

    NioKey(NioSelector selector, SelChImpl channel, Table table, int[] names) {
        this.selector = selector;
        this.channel = channel;
        this.table = table;
        number = names[0];
        index = names[1];
        serial = names[2];
    }

    @Override
    public SelectableChannel channel() {
        return (SelectableChannel) channel;
    }

    @Override
    public Selector selector() {
        return selector;
    }

    @Override
    public int interestOps() {
        ensureValid();
        return Table.accepted(table.interest(index, serial));
    }

    @Override
    public SelectionKey interestOps(int ops) {
        ensureValid();
        ensureOps(ops);
        Table.accepted(table.setInterest(index, serial, ops));
        return this;
    }

    @Override
    public int interestOpsOr(int ops) {
        ensureValid();
        ensureOps(ops);
        return Table.accepted(table.interestOr(index, serial, ops));
    }

    @Override
    public int interestOpsAnd(int ops) {
        ensureValid();
        return Table.accepted(table.interestAnd(index, serial, ops));
    }

    @Override
    public int readyOps() {
        ensureValid();
        return ready;
    }

    /** The ready set that the table has since it marked this key. */
    void setReady(int ops) {
        ready = ops;
    }

    /** A key that was cancelled is invalid at once, though the table learns it from the next selection. */
    private void ensureValid() {
        if (!isValid()) {
            throw new CancelledKeyException();
        }
    }

    /** The table refuses what the channel doesn't support; it has no other bits than these. */
    private static void ensureOps(int ops) {
        if ((ops & ~OPS) != 0) {
            throw new IllegalArgumentException();
        }
    }

    /** Of each key the number that the table has for its channel until the key is removed, its index and its serial. */
    static int[] names(Collection<? extends SelectionKey> keys) {
        int[] names = new int[3 * keys.size()];
        int at = 0;
        for (SelectionKey each : keys) {
            NioKey key = (NioKey) each;
            names[at++] = key.number;
            names[at++] = key.index;
            names[at++] = key.serial;
        }
        return names;
    }

    int index() {
        return index;
    }

    int serial() {
        return serial;
    }

    SelChImpl selectable() {
        return channel;
    }

    /** Takes the key out of the selected set. */
    boolean unselect() {
        return table.unselect(index, serial);
    }

    /** As in the JDK: what the channel is ready for by these events, of the operations that a selection looked for. */
    int readyBy(int events, int interest) {
        if ((events & (Net.POLLERR | Net.POLLHUP)) != 0) {
            return interest;
        }
        int ops = 0;
        if ((events & Net.POLLIN) != 0) {
            ops |= OP_READ | OP_ACCEPT;
        }
        if ((events & Net.POLLOUT) != 0) {
            ops |= OP_WRITE | OP_CONNECT;
        }
        return ops & interest & possibleOps();
    }

    /** A stream is ready to connect while that is pending, and to read and write once it is connected. */
    private int possibleOps() {
        if (!(channel instanceof SocketChannel)) {
            return OPS;
        }
        SocketChannel stream = (SocketChannel) channel;
        if (stream.isConnected()) {
            return OP_READ | OP_WRITE;
        }
        return stream.isConnectionPending() ? OP_CONNECT : 0;
    }

    @Override
    public String toString() {
        return "channel=" + channel + ", selector=" + selector + (isValid() ? "" : ", invalid");
    }
}
