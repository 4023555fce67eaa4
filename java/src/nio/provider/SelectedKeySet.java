package nio.provider;

import java.nio.channels.SelectionKey;
import java.util.AbstractSet;
import java.util.Collection;
import java.util.HashSet;
import java.util.Iterator;
import java.util.Set;

/**
 * The selected set. The table has it; this is a copy, so that who goes over it doesn't go over all keys. A key comes in
 * where the table marks it, and goes out where the table takes it out. As in the JDK it isn't safe between threads:
 * selections have its monitor.
 */
final class SelectedKeySet extends AbstractSet<SelectionKey> {
    private final Table table;
    private final Set<NioKey> keys = new HashSet<>();

    SelectedKeySet(Table table) {
        this.table = table;
    }

    /** The table has selected this key. */
    void select(NioKey key) {
        keys.add(key);
    }

    /** The table has removed this key. */
    void forget(NioKey key) {
        keys.remove(key);
    }

    @Override
    public Iterator<SelectionKey> iterator() {
        Iterator<NioKey> each = keys.iterator();
        return new Iterator<>() {
            private NioKey last;

            @Override
            public boolean hasNext() {
                return each.hasNext();
            }

            @Override
            public SelectionKey next() {
                last = each.next();
                return last;
            }

            @Override
            public void remove() {
                each.remove();
                last.unselect();
            }
        };
    }

    @Override
    public int size() {
        return keys.size();
    }

    @Override
    public boolean contains(Object key) {
        return keys.contains(key);
    }

    @Override
    public boolean remove(Object key) {
        return keys.remove(key) && ((NioKey) key).unselect();
    }

    @Override
    public void clear() {
        table.unselectAll(NioKey.names(keys));
        keys.clear();
    }

    @Override
    public boolean addAll(Collection<? extends SelectionKey> more) {
        throw new UnsupportedOperationException();
    }
}
