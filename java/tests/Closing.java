import java.io.IOException;
import java.nio.channels.CancelledKeyException;
import java.nio.channels.ClosedSelectorException;
import java.nio.channels.Pipe;
import java.nio.channels.SelectionKey;
import java.nio.channels.Selector;
import java.util.ArrayList;
import java.util.List;

/**
 * Closes selectors while other threads select, register, change interests and wake up:
 * {@code java @DIR/nio.options Closing.java [ROUNDS]}. Each other call has to answer, or to be refused as Java says;
 * afterwards no channel is registered, and no key is valid. It ends with status 1 where that isn't so.
 */
public class Closing {
    private final Selector selector = Selector.open();
    private final List<Pipe> pipes = new ArrayList<>();
    private final List<SelectionKey> keys = new ArrayList<>();
    private volatile Throwable fault;

    private Closing() throws IOException {}

    public static void main(String[] words) throws Exception {
        int rounds = words.length > 0 ? Integer.parseInt(words[0]) : 300;
        for (int round = 0; round < rounds; round++) {
            new Closing().run(round);
        }
        System.out.println(rounds + " selectors closed, of " + Selector.open().provider().getClass().getName());
    }

    private interface Body {
        void run(int turn) throws Exception;
    }

    private void run(int round) throws Exception {
        for (int i = 0; i < 8; i++) {
            Pipe pipe = Pipe.open();
            pipe.source().configureBlocking(false);
            pipes.add(pipe);
            if (i < 4) {
                keys.add(pipe.source().register(selector, SelectionKey.OP_READ));
            }
        }
        List<Thread> threads = new ArrayList<>();
        threads.add(start(turn -> selector.select()));
        threads.add(start(turn -> selector.selectedKeys().size()));
        threads.add(start(turn -> selector.wakeup().keys().size()));
        threads.add(start(turn -> keys.get(turn % 4).interestOps(turn % 2)));
        threads.add(start(turn -> pipes.get(4 + turn % 4).source().register(selector, SelectionKey.OP_READ)));
        Thread.sleep(0, 100_000 * (round % 8));
        selector.close();
        selector.wakeup();
        for (Thread thread : threads) {
            thread.join(20_000);
            check(!thread.isAlive(), "a call doesn't return");
        }
        if (fault != null) {
            throw new IllegalStateException("round " + round, fault);
        }
        for (Pipe pipe : pipes) {
            check(!pipe.source().isRegistered(), "a channel is registered");
            pipe.source().close();
            pipe.sink().close();
        }
        for (SelectionKey key : keys) {
            check(!key.isValid(), "a key is valid");
        }
    }

    /** Makes the call again and again, until it is refused. */
    private Thread start(Body body) {
        Thread thread = new Thread(() -> {
            try {
                for (int turn = 0; selector.isOpen(); turn++) {
                    body.run(turn);
                }
            } catch (ClosedSelectorException | CancelledKeyException e) {
                // The selector was closed.
            } catch (Throwable e) {
                fault = e;
            }
        });
        thread.setDaemon(true);
        thread.start();
        return thread;
    }

    private static void check(boolean holds, String what) {
        if (!holds) {
            throw new IllegalStateException(what);
        }
    }
}
