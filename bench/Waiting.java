import java.io.IOException;
import java.nio.channels.Pipe;
import java.nio.channels.SelectionKey;
import java.nio.channels.Selector;
import java.util.ArrayList;
import java.util.List;

/**
 * A wakeup and then selectNow, on a selector with one key, and selectNow over 1,000 keys of which none is ready. Prints
 * how often each was done, and its name and nanoseconds.
 */
public final class Waiting {
    private static final int PAIRS = 200_000;
    private static final int SELECTIONS = 200_000;
    private static final int MANY = 1_000;

    /** The pipes whose sources are registered; each stays open until the program ends. */
    private static final List<Pipe> PIPES = new ArrayList<>();

    private Waiting() {}

    public static void main(String[] arguments) throws IOException {
        try (Selector one = selectorWith(1); Selector many = selectorWith(MANY)) {
            pairs(one);
            System.out.println("calls " + PAIRS + " wakeup_select_now " + pairs(one));
            selections(many);
            System.out.println("calls " + SELECTIONS + " select_now_1000 " + selections(many));
        }
    }

    private static Selector selectorWith(int keys) throws IOException {
        Selector selector = Selector.open();
        for (int key = 0; key < keys; key++) {
            Pipe pipe = Pipe.open();
            PIPES.add(pipe);
            pipe.source().configureBlocking(false);
            pipe.source().register(selector, SelectionKey.OP_READ);
        }
        return selector;
    }

    private static long pairs(Selector selector) throws IOException {
        long start = System.nanoTime();
        for (int pair = 0; pair < PAIRS; pair++) {
            selector.wakeup();
            expectNone(selector.selectNow());
        }
        return System.nanoTime() - start;
    }

    private static long selections(Selector selector) throws IOException {
        long start = System.nanoTime();
        for (int selection = 0; selection < SELECTIONS; selection++) {
            expectNone(selector.selectNow());
        }
        return System.nanoTime() - start;
    }

    private static void expectNone(int ready) {
        if (ready != 0) {
            throw new IllegalStateException("a key is ready");
        }
    }
}
