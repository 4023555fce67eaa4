package nio.provider;

import java.io.IOException;
import java.nio.channels.ClosedSelectorException;
import java.nio.channels.IllegalSelectorException;
import java.nio.channels.SelectableChannel;
import java.nio.channels.SelectionKey;
import java.nio.channels.Selector;
import java.nio.channels.spi.AbstractSelectableChannel;
import java.nio.channels.spi.AbstractSelector;
import java.nio.channels.spi.SelectorProvider;
import java.util.ArrayDeque;
import java.util.ArrayList;
import java.util.Arrays;
import java.util.Collections;
import java.util.Deque;
import java.util.List;
import java.util.Objects;
import java.util.Set;
import java.util.concurrent.atomic.AtomicReferenceArray;
import java.util.function.Consumer;
import sun.nio.ch.SelChImpl;

/**
 * A selector whose key set, selected set, wakeup and closing are those of a proved table.
 *
 * <p>As in the JDK a selection has the monitors of the selector and of its selected set. Java's own part: which object
 * is the key of an index, the keys that were cancelled and that the table wasn't told of yet, and what the JDK's
 * channels are told where a key is removed.
 */
final class NioSelector extends AbstractSelector {
    private final Table table = new Table();
    private final Set<SelectionKey> keys = Collections.unmodifiableSet(new KeySet(this, table));
    private final SelectedKeySet selectedKeys = new SelectedKeySet(table);

    /** Who registers a key, lets its channel go, or lets the table go has this monitor. */
    private final Object registry = new Object();

    /** The key of each index, between its registration and its removal. It is written with the monitor above. */
    private volatile AtomicReferenceArray<NioKey> keyAt = new AtomicReferenceArray<>(32);

    /** Below: with the selector's monitor. */
    private final NioKey[] foundKeys = new NioKey[Table.MOST_FOUND];

    private boolean isSelecting;

    /** The keys that the table has removed, and that Java still has. */
    private final Deque<NioKey> removed = new ArrayDeque<>();

    NioSelector(SelectorProvider provider) throws IOException {
        super(provider);
    }

    // ---- sets ----

    @Override
    public Set<SelectionKey> keys() {
        ensureOpen();
        return keys;
    }

    @Override
    public Set<SelectionKey> selectedKeys() {
        ensureOpen();
        return selectedKeys;
    }

    private void ensureOpen() {
        if (!isOpen()) {
            throw new ClosedSelectorException();
        }
    }

    /** The keys with these names: selector, index and serial of each. A key that was removed meanwhile is left out. */
    List<NioKey> named(int[] names) {
        List<NioKey> list = new ArrayList<>(names.length / 3);
        for (int i = 0; i < names.length; i += 3) {
            NioKey key = key(names[i + 1]);
            if (key != null && key.serial() == names[i + 2]) {
                list.add(key);
            }
        }
        return list;
    }

    /** The key of the index. Where a selection sees it before Java does, it is being registered. */
    private NioKey key(int index) {
        AtomicReferenceArray<NioKey> place = keyAt;
        NioKey key = index < place.length() ? place.get(index) : null;
        if (key != null) {
            return key;
        }
        synchronized (registry) {
            return index < keyAt.length() ? keyAt.get(index) : null;
        }
    }

    // ---- registering ----

    @Override
    protected SelectionKey register(AbstractSelectableChannel channel, int ops, Object attachment) {
        if (!(channel instanceof SelChImpl)) {
            throw new IllegalSelectorException();
        }
        SelChImpl selectable = (SelChImpl) channel;
        int[] names = new int[3];
        synchronized (registry) {
            ensureOpen();
            Table.accepted(table.register(selectable.getFDVal(), kind(channel), ops, names));
            NioKey key = new NioKey(this, selectable, table, names);
            key.attach(attachment);
            place(key);
            return key;
        }
    }

    private void place(NioKey key) {
        if (key.index() >= keyAt.length()) {
            AtomicReferenceArray<NioKey> longer = new AtomicReferenceArray<>(2 * key.index());
            for (int index = 0; index < keyAt.length(); index++) {
                longer.set(index, keyAt.get(index));
            }
            keyAt = longer;
        }
        keyAt.set(key.index(), key);
    }

    /** The kind of channel of {@code nio.h}, by the operations that the channel supports. */
    private static int kind(SelectableChannel channel) {
        switch (channel.validOps()) {
            case SelectionKey.OP_READ | SelectionKey.OP_WRITE | SelectionKey.OP_CONNECT:
                return 0;
            case SelectionKey.OP_ACCEPT:
                return 1;
            case SelectionKey.OP_READ:
                return 2;
            case SelectionKey.OP_WRITE:
                return 3;
            case SelectionKey.OP_READ | SelectionKey.OP_WRITE:
                return 4;
            default:
                throw new IllegalSelectorException();
        }
    }

    // ---- selecting ----

    @Override
    public int select() throws IOException {
        return lockAndSelect(null, 0);
    }

    @Override
    public int select(long timeout) throws IOException {
        return lockAndSelect(null, ensureTimeout(timeout));
    }

    @Override
    public int selectNow() throws IOException {
        return lockAndSelect(null, Table.NOW);
    }

    @Override
    public int select(Consumer<SelectionKey> action) throws IOException {
        return lockAndSelect(Objects.requireNonNull(action), 0);
    }

    @Override
    public int select(Consumer<SelectionKey> action, long timeout) throws IOException {
        return lockAndSelect(Objects.requireNonNull(action), ensureTimeout(timeout));
    }

    @Override
    public int selectNow(Consumer<SelectionKey> action) throws IOException {
        return lockAndSelect(Objects.requireNonNull(action), Table.NOW);
    }

    private static long ensureTimeout(long timeout) {
        if (timeout < 0) {
            throw new IllegalArgumentException("Negative timeout");
        }
        return timeout;
    }

    private int lockAndSelect(Consumer<SelectionKey> action, long ms) throws IOException {
        synchronized (this) {
            ensureOpen();
            if (isSelecting) {
                throw new IllegalStateException("select in progress");
            }
            isSelecting = true;
            try {
                synchronized (selectedKeys) {
                    return action == null ? selectKeys(ms, null) : consume(action, ms);
                }
            } finally {
                isSelecting = false;
            }
        }
    }

    /** A selection with an action: its keys don't come into the selected set, and no key of that leaves it. */
    private int consume(Consumer<SelectionKey> action, long ms) throws IOException {
        List<NioKey> consumed = new ArrayList<>();
        selectKeys(ms, consumed);
        for (NioKey key : consumed) {
            action.accept(key);
            ensureOpen();
        }
        return consumed.size();
    }

    /** Selects: the keys that the table marks come to those that are consumed, else into the selected set. */
    private int selectKeys(long ms, List<NioKey> consumed) throws IOException {
        boolean waits = ms != Table.NOW;
        boolean isOver = false;
        // The keys that were cancelled before are gone, and their channels closed, before it waits.
        removeCancelled();
        try {
            if (waits) {
                begin();
            }
            int updated = poll(ms, consumed);
            isOver = true;
            return updated;
        } finally {
            if (waits) {
                end();
            }
            if (!isOver) {
                table.leave();
            }
            removeCancelled();
        }
    }

    /** Polls until the selection is over. */
    private int poll(long ms, List<NioKey> consumed) throws IOException {
        long end = ms > 0 ? System.nanoTime() + nanos(ms) : 0;
        int count = table.start(ms);
        while (count != Table.OVER) {
            long left = ms > 0 && count == 0 ? end - System.nanoTime() : 1;
            int updated = tell(translate(Table.accepted(count)), left <= 0, consumed);
            Arrays.fill(foundKeys, 0, count, null);
            if (updated != -Table.AGAIN) {
                return Table.accepted(updated);
            }
            count = table.poll(ms > 0 ? millis(left) : ms);
        }
        return 0;
    }

    private static long nanos(long ms) {
        return Math.min(ms, Long.MAX_VALUE / 4_000_000) * 1_000_000;
    }

    /** Not less than so many nanoseconds. */
    private static long millis(long nanos) {
        return (nanos + 999_999) / 1_000_000;
    }

    /** Says what each key that was found is ready for: where it was cancelled meanwhile, for nothing. */
    private int translate(int count) {
        for (int i = 0; i < count; i++) {
            NioKey key = key(table.found(i, Table.INDEX));
            foundKeys[i] = key;
            if (key.isValid()) {
                table.setReady(i, key.readyBy(table.found(i, Table.EVENTS), table.found(i, Table.INTEREST)));
            }
        }
        return count;
    }

    /** Tells the table of what was found: how many keys it updated, or minus {@code AGAIN}. */
    private int tell(int count, boolean elapsed, List<NioKey> consumed) {
        int updated = table.tell(count, elapsed, consumed != null);
        for (int i = 0; i < count; i++) {
            int ready = table.found(i, Table.READY);
            if (ready != 0) {
                mark(foundKeys[i], ready, consumed);
            }
        }
        return updated;
    }

    private void mark(NioKey key, int ready, List<NioKey> consumed) {
        key.setReady(ready);
        if (consumed == null) {
            selectedKeys.select(key);
        } else {
            consumed.add(key);
        }
    }

    @Override
    public Selector wakeup() {
        table.wakeup();
        return this;
    }

    // ---- cancelling and closing ----

    /** Removes the keys that were cancelled since the last time. A closing removes all by itself. */
    private void removeCancelled() throws IOException {
        Set<SelectionKey> cancelled = cancelledKeys();
        // What was cancelled before, by this thread or by one that it has heard of, is seen without the lock too.
        if (!cancelled.isEmpty()) {
            synchronized (cancelled) {
                if (remove(cancelled)) {
                    cancelled.clear();
                }
            }
        }
        release();
    }

    /** Removes these keys. Answers whether the table has: it hasn't where the selector is being closed. */
    private boolean remove(Set<SelectionKey> cancelled) {
        synchronized (registry) {
            int answer = table.remove(NioKey.names(cancelled));
            if (answer == -Table.CLOSED_SELECTOR) {
                return false;
            }
            Table.accepted(answer);
            for (SelectionKey key : cancelled) {
                keyAt.set(((NioKey) key).index(), null);
                removed.add((NioKey) key);
            }
            return true;
        }
    }

    /** The channels of removed keys aren't registered here any more. Where one is closed, so is its descriptor now. */
    private void release() throws IOException {
        while (!removed.isEmpty()) {
            NioKey key = removed.remove();
            selectedKeys.forget(key);
            deregister(key);
            SelectableChannel channel = key.channel();
            if (!channel.isOpen() && !channel.isRegistered()) {
                key.selectable().kill();
            }
        }
    }

    @Override
    protected void implCloseSelector() throws IOException {
        table.shut();
        synchronized (this) {
            synchronized (selectedKeys) {
                synchronized (registry) {
                    table.finish();
                }
                for (int index = 0; index < keyAt.length(); index++) {
                    NioKey key = keyAt.getAndSet(index, null);
                    if (key != null) {
                        removed.add(key);
                    }
                }
                release();
            }
        }
    }
}
