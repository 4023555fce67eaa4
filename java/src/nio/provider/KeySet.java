package nio.provider;

import java.nio.channels.SelectionKey;
import java.util.AbstractSet;
import java.util.Collections;
import java.util.Iterator;

/** The key set, as the table has it. An iterator goes over the keys that there were when it was made. */
final class KeySet extends AbstractSet<SelectionKey> {
    private final NioSelector selector;
    private final Table table;

    KeySet(NioSelector selector, Table table) {
        this.selector = selector;
        this.table = table;
    }

    @Override
    public Iterator<SelectionKey> iterator() {
        return Collections.<SelectionKey>unmodifiableList(selector.named(table.keys())).iterator();
    }

    @Override
    public int size() {
        return table.count();
    }
}
