package nio.provider;

import java.io.IOException;
import java.nio.channels.spi.AbstractSelector;
import sun.nio.ch.EPollSelectorProvider;

/**
 * A provider whose selectors are proved tables, and whose channels are the JDK's.
 *
 * <p>The system property {@code java.nio.channels.spi.SelectorProvider} names it; {@code java @out/nio.options} sets
 * that and all else that it needs. {@code docs/JAVA.md} says what is the table's, and what stays Java's.
 */
public final class NioProvider extends EPollSelectorProvider {
    @Override
    public AbstractSelector openSelector() throws IOException {
        return new NioSelector(this);
    }
}
