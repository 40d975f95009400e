import java.util.*;
import java.util.concurrent.*;

/**
 * Forces each wrong way to copy. The map's own iterator pauses before its entry 32: there one worker updates component 0, and then
 * another one component 63. Writes the name of each way, the history, and an empty line.
 */
@SuppressWarnings("serial")
public final class CopiesForced {
    static Runnable pause = () -> { };

    /** The same entries; their iterator pauses. */
    static Set<Map.Entry<Integer, Long>> paused(Set<Map.Entry<Integer, Long>> entries) {
        return new AbstractSet<>() {
            @Override public int size() {
                return entries.size();
            }

            @Override public Iterator<Map.Entry<Integer, Long>> iterator() {
                Iterator<Map.Entry<Integer, Long>> rest = entries.iterator();
                return new Iterator<>() {
                    private int place;

                    @Override public boolean hasNext() {
                        return rest.hasNext();
                    }

                    @Override public Map.Entry<Integer, Long> next() {
                        if (place++ == Copies.COMPONENTS / 2) pause.run();
                        return rest.next();
                    }
                };
            }
        };
    }

    static final class Tree extends TreeMap<Integer, Long> {
        @Override public Set<Map.Entry<Integer, Long>> entrySet() {
            return paused(super.entrySet());
        }
    }

    static final class SkipList extends ConcurrentSkipListMap<Integer, Long> {
        @Override public Set<Map.Entry<Integer, Long>> entrySet() {
            return paused(super.entrySet());
        }
    }

    static final class Hash extends ConcurrentHashMap<Integer, Long> {
        @Override public Set<Map.Entry<Integer, Long>> entrySet() {
            return paused(super.entrySet());
        }
    }

    static void update(Map<Integer, Long> map, SnapRecorder.Log log, int component) {
        log.beginUpdate(component, 1);
        map.put(component, 1L);
        log.endUpdate();
    }

    public static void main(String[] words) {
        List<Map<Integer, Long>> maps = List.of(Collections.synchronizedMap(new Tree()), new SkipList(), new Hash());
        for (int m = 0; m < maps.size(); m++) {
            Copies.Way way = Copies.WAYS.get(m + 1); // the first one is right
            Map<Integer, Long> map = maps.get(m);
            for (int k = 0; k < Copies.COMPONENTS; k++) map.put(k, 0L);
            SnapRecorder recorder = new SnapRecorder(3, Copies.COMPONENTS, 1);
            pause = () -> {
                pause = () -> { };
                update(map, recorder.log(0), 0);
                update(map, recorder.log(1), Copies.COMPONENTS - 1);
            };
            recorder.log(2).beginView();
            long[] values = way.view(map);
            recorder.log(2).endViewValues(values);
            System.out.println(way.name() + "\n" + recorder.text());
        }
    }
}
