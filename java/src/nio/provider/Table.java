package nio.provider;

import java.io.IOException;
import java.lang.ref.Cleaner;
import java.nio.ByteBuffer;
import java.nio.ByteOrder;
import java.nio.IntBuffer;
import java.nio.channels.CancelledKeyException;
import java.nio.channels.ClosedSelectorException;
import java.util.Arrays;
import java.util.Objects;

/**
 * The proved table of one selector, in native memory, with a descriptor of epoll and a bell.
 *
 * <p>Most native methods answer a number from 0 on, or minus a status: those of {@code nio.h} have their names here.
 */
final class Table {
    static final int AGAIN = 1;
    static final int NO_MEMORY = 4;
    static final int NO_SUCH_KEY = 10;
    static final int SPENT = 13;
    static final int ILLEGAL_OPS = 14;
    static final int CANCELLED_KEY = 17;
    static final int CLOSED_SELECTOR = 18;
    static final int SELECTOR_FULL = 19;

    /** The answer of a selection that is over, where nothing was found. */
    static final int OVER = -1000;

    /** The answer of a poll that failed, beside an exception. */
    static final int FAILED = -1001;

    /** The time of a selection that doesn't wait. 0 is without limit. */
    static final long NOW = -1;

    /** How many keys a poll finds at most. */
    static final int MOST_FOUND = 1024;

    /** What is known of each in {@code found}: so many words, and which of them. */
    static final int WORDS = 5;

    static final int INDEX = 1;
    static final int EVENTS = 2;
    static final int INTEREST = 3;
    static final int READY = 4;

    /** How many keys a selector has at most. */
    private static final int KEYS = Integer.getInteger("nio.keys", 16_384);

    /** A channel's number keeps its kind: so there are more numbers than keys. */
    private static final int CHANNELS = Math.min(2 * KEYS, 262_144);

    private static final Cleaner CLEANER = Cleaner.create();

    static {
        System.load(Objects.requireNonNull(System.getProperty("nio.library"), "nio.options sets nio.library"));
    }

    /** Of the native struct. The native code reads it. */
    private final long address;

    /** What the last poll found, in native memory. */
    private final IntBuffer found;

    Table() throws IOException {
        long made = make(KEYS, CHANNELS);
        address = made;
        found = foundAt(made).order(ByteOrder.nativeOrder()).asIntBuffer();
        CLEANER.register(this, () -> release(made));
    }

    /** What a call answered; where it was refused, what Java throws then. */
    static int accepted(int answer) {
        if (answer >= 0) {
            return answer;
        }
        switch (-answer) {
            case CANCELLED_KEY:
            case NO_SUCH_KEY:
                throw new CancelledKeyException();
            case ILLEGAL_OPS:
                throw new IllegalArgumentException();
            case CLOSED_SELECTOR:
                throw new ClosedSelectorException();
            case SELECTOR_FULL:
            case SPENT:
                throw new IllegalStateException("a selector has at most " + KEYS + " keys: -Dnio.keys=N sets how many");
            case NO_MEMORY:
                throw new OutOfMemoryError("of a selector");
            default:
                throw new InternalError("status " + -answer);
        }
    }

    /** The key set: selector, index and serial of each key. It is empty where the selector is closed. */
    int[] keys() {
        int[] into = new int[3 * 32];
        for (;;) {
            int length = 3 * count(keys(into));
            if (length <= into.length) {
                return Arrays.copyOf(into, length);
            }
            into = new int[2 * length];
        }
    }

    /** How many keys there are. */
    int count() {
        return count(keys(new int[0]));
    }

    private static int count(int answer) {
        return answer == -CLOSED_SELECTOR ? 0 : accepted(answer);
    }

    // ---- native/table.c: with the selector's monitor ----

    /** A word of a key that the last poll found. */
    int found(int place, int word) {
        return found.get(WORDS * place + word);
    }

    /** Says what a key that the last poll found is ready for, before {@code tell}. */
    void setReady(int place, int ops) {
        found.put(WORDS * place + READY, ops);
    }

    /**
     * Begins a selection and polls: how many keys that found, or {@code OVER}. It waits for at most so many
     * milliseconds.
     */
    native int start(long ms) throws IOException;

    /** Polls once more. */
    native int poll(long ms) throws IOException;

    /**
     * Tells the selection what each key that was found is ready for, and whether its time is over: how many keys were
     * updated, or minus {@code AGAIN}, where nothing was found and it goes on. Then {@code READY} is the ready set of
     * each key that the table marked, and 0 of each other one, which is as it was. Where the keys are consumed, one that
     * is selected already is told as if it weren't, and no other one is selected.
     */
    native int tell(int count, boolean elapsed, boolean consumes);

    /** Ends a selection that failed. */
    native void leave();

    // ---- one at a time ----

    /** Writes the channel's number, and the index and the serial of its key. */
    native int register(int fd, int kind, int ops, int[] names);

    /** Cancels these keys, removes them, and lets their channels go. It has the selector's monitor too. */
    native int remove(int[] names);

    /** Ends the closing, and lets the table go. Later calls find no key. */
    native void finish();

    // ---- at any time ----

    /** Begins to close the selector, once. */
    native void shut();

    native void wakeup();

    /** Writes the keys where there is room for all. Answers how many there are. */
    private native int keys(int[] into);

    native int interest(int index, int serial);

    native int setInterest(int index, int serial, int ops);

    native int interestOr(int index, int serial, int ops);

    native int interestAnd(int index, int serial, int ops);

    native boolean unselect(int index, int serial);

    /** Takes these keys out of the selected set. */
    void unselectAll(int[] names) {
        unselectAll(names, names.length);
    }

    private native void unselectAll(int[] names, int count);

    private static native ByteBuffer foundAt(long address);

    private static native long make(int keys, int channels) throws IOException;

    /** Lets go what {@code finish} left. Nobody has this table any more. */
    private static native void release(long address);
}
