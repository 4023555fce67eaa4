import java.io.IOException;
import java.nio.ByteBuffer;
import java.nio.channels.CancelledKeyException;
import java.nio.channels.Pipe;
import java.nio.channels.SelectionKey;
import java.nio.channels.Selector;
import java.util.ArrayList;
import java.util.List;
import java.util.Random;
import java.util.concurrent.atomic.AtomicLong;

/**
 * One thread selects, without a time limit and each third time by {@code selectNow}, beside others that register,
 * cancel, close, write and wake it up: {@code java @DIR/nio.options Stress.java [THREADS] [SECONDS] [SEED]}. Each wakeup,
 * and each byte that is written for a key that is looked for, has to make the selecting thread return; at the end no key
 * may be left. It writes how many calls there were, and ends with status 1 where a wakeup, a byte or a key was lost.
 */
public class Stress {
    private static final long MOST_NANOS = 20_000_000_000L;

    private final Selector selector = Selector.open();
    private final AtomicLong rounds = new AtomicLong();
    private final AtomicLong calls = new AtomicLong();
    private volatile boolean isOver;
    private volatile Throwable fault;

    private Stress() throws IOException {}

    public static void main(String[] words) throws Exception {
        int threads = words.length > 0 ? Integer.parseInt(words[0]) : 8;
        int seconds = words.length > 1 ? Integer.parseInt(words[1]) : 10;
        long seed = words.length > 2 ? Long.parseLong(words[2]) : System.nanoTime();
        System.out.println("seed " + seed + ", selectors of " + Selector.open().provider().getClass().getName());
        new Stress().run(threads, seconds, seed);
    }

    private void run(int threads, int seconds, long seed) throws Exception {
        Thread selecting = start(this::selectAll);
        List<Thread> workers = new ArrayList<>();
        for (int i = 0; i < threads; i++) {
            Random random = new Random(seed + i);
            workers.add(start(() -> work(random)));
        }
        for (int i = 0; i < 10 * seconds && fault == null; i++) {
            Thread.sleep(100);
        }
        isOver = true;
        for (Thread worker : workers) {
            worker.join();
        }
        selector.wakeup();
        selecting.join();
        if (fault == null) {
            selector.selectNow();
            check(selector.keys().isEmpty(), "a key is left");
            check(selector.selectedKeys().isEmpty(), "a selected key is left");
            selector.close();
        }
        System.out.println(rounds + " selections, " + calls + " calls of others");
        if (fault != null) {
            fault.printStackTrace();
        }
        System.exit(fault == null ? 0 : 1);
    }

    private interface Body {
        void run() throws Exception;
    }

    private Thread start(Body body) {
        Thread thread = new Thread(() -> {
            try {
                body.run();
            } catch (Throwable e) {
                fault = e;
                isOver = true;
            }
        });
        thread.start();
        return thread;
    }

    private static void check(boolean holds, String what) {
        if (!holds) {
            throw new IllegalStateException(what);
        }
    }

    /** Selects, reads what was written, and counts the rounds. */
    private void selectAll() throws IOException {
        ByteBuffer bytes = ByteBuffer.allocate(16);
        while (!isOver) {
            if (rounds.get() % 3 == 0) {
                selector.selectNow();
            } else {
                selector.select();
            }
            for (SelectionKey key : selector.selectedKeys()) {
                bytes.clear();
                try {
                    if (key.isReadable() && ((Pipe.SourceChannel) key.channel()).read(bytes) > 0) {
                        ((AtomicLong) key.attachment()).addAndGet(bytes.position());
                    }
                } catch (CancelledKeyException | java.nio.channels.ClosedChannelException e) {
                    // Its thread cancelled the key, or closed the channel.
                }
            }
            selector.selectedKeys().clear();
            rounds.incrementAndGet();
        }
    }

    private void work(Random random) throws Exception {
        while (!isOver) {
            Pipe pipe = Pipe.open();
            pipe.source().configureBlocking(false);
            for (int i = random.nextInt(4); i >= 0 && !isOver; i--) {
                register(pipe, random);
            }
            pipe.source().close();
            pipe.sink().close();
            calls.incrementAndGet();
        }
    }

    /** Registers a pipe's source, makes calls on its key, cancels it, and waits until it is gone. */
    private void register(Pipe pipe, Random random) throws Exception {
        AtomicLong read = new AtomicLong();
        SelectionKey key = pipe.source().register(selector, random.nextBoolean() ? SelectionKey.OP_READ : 0, read);
        for (int i = random.nextInt(8); i > 0 && !isOver; i--) {
            switch (random.nextInt(4)) {
                case 0:
                    wakeUp();
                    break;
                case 1:
                    key.interestOps(random.nextBoolean() ? SelectionKey.OP_READ : 0);
                    break;
                case 2:
                    check(key.isValid() && key.channel().keyFor(selector) == key, "a valid key");
                    key.readyOps();
                    break;
                default:
                    write(pipe, key, read);
            }
            calls.incrementAndGet();
        }
        key.cancel();
        check(!key.isValid(), "an invalid key");
        await(() -> pipe.source().keyFor(selector) == null, "a removal", true);
    }

    /** A wakeup makes a selection return: the one in progress, or else the next one. */
    private void wakeUp() throws Exception {
        long before = rounds.get();
        selector.wakeup();
        await(() -> rounds.get() > before, "a wakeup", false);
    }

    /** Where reading is looked for by a selection that begins, what was written is read. */
    private void write(Pipe pipe, SelectionKey key, AtomicLong read) throws Exception {
        long before = read.get();
        key.interestOpsOr(SelectionKey.OP_READ);
        pipe.sink().write(ByteBuffer.allocate(1));
        selector.wakeup();
        await(() -> read.get() > before, "a byte", false);
    }

    private interface Test {
        boolean holds();
    }

    private void await(Test test, String what, boolean wakes) throws Exception {
        long end = System.nanoTime() + MOST_NANOS;
        while (!test.holds() && !isOver) {
            if (wakes) {
                selector.wakeup();
                calls.incrementAndGet();
            }
            check(System.nanoTime() < end, what + " was lost");
            Thread.yield();
        }
    }
}
