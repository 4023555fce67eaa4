import java.io.IOException;
import java.nio.ByteBuffer;
import java.nio.channels.Pipe;
import java.nio.channels.SelectionKey;
import java.nio.channels.Selector;
import java.util.ArrayList;
import java.util.List;
import java.util.Locale;

/**
 * Times calls on selectors, in nanoseconds: {@code java Calls.java}. Of each the least time of many short rounds.
 */
public class Calls {
    private static final int ROUNDS = 400;

    private interface Call {
        void make() throws IOException;
    }

    public static void main(String[] words) throws IOException {
        for (int count : new int[] {1, 100, 1000}) {
            selections(count);
        }
        Selector selector = Selector.open();
        Pipe pipe = Pipe.open();
        pipe.source().configureBlocking(false);
        SelectionKey key = pipe.source().register(selector, SelectionKey.OP_READ);
        selector.selectNow();
        time("readyOps", 2_000, key::readyOps);
        time("interestOps()", 2_000, key::interestOps);
        int[] ops = {0};
        time("interestOps(int), changed", 2_000, () -> key.interestOps(ops[0] ^= SelectionKey.OP_READ));
        time("wakeup", 2_000, selector::wakeup);
        time("wakeup and select", 500, () -> {
            selector.wakeup();
            selector.select();
        });
        time("Selector.open and close", 20, () -> Selector.open().close());
    }

    /** Over so many keys, of which none, one, or each is ready. */
    private static void selections(int count) throws IOException {
        Selector selector = Selector.open();
        List<Pipe> pipes = new ArrayList<>();
        for (int i = 0; i < count; i++) {
            Pipe pipe = Pipe.open();
            pipe.source().configureBlocking(false);
            pipe.source().register(selector, SelectionKey.OP_READ);
            pipes.add(pipe);
        }
        time("selectNow over " + count + " idle keys", 500, selector::selectNow);
        pipes.get(0).sink().write(ByteBuffer.allocate(1));
        time("the same, one ready, clear", 500, () -> select(selector));
        time("the same, one ready, action", 500, () -> selector.selectNow(key -> {}));
        for (Pipe pipe : pipes.subList(1, count)) {
            pipe.sink().write(ByteBuffer.allocate(1));
        }
        time("the same, all ready, clear", 20, () -> select(selector));
        selector.close();
        for (Pipe pipe : pipes) {
            pipe.source().close();
            pipe.sink().close();
        }
    }

    private static void select(Selector selector) throws IOException {
        selector.selectNow();
        selector.selectedKeys().clear();
    }

    private static void time(String what, int count, Call call) throws IOException {
        double least = Double.MAX_VALUE;
        for (int round = 0; round < ROUNDS; round++) {
            long start = System.nanoTime();
            for (int i = 0; i < count; i++) {
                call.make();
            }
            least = Math.min(least, (double) (System.nanoTime() - start) / count);
        }
        System.out.printf(Locale.ROOT, "%-32s %8.0f%n", what, least);
    }
}
