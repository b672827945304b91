import java.util.ArrayDeque;
import java.util.concurrent.ForkJoinPool;
import java.util.concurrent.ForkJoinTask;
import java.util.concurrent.RecursiveTask;

/** An event service by the JDK's pool, with so many events under way: the oldest one is joined before the next one is submitted. Usage: Serve WORKERS WINDOW COUNT ROUNDS FAILING. */
public final class Serve {
    static final class Fails extends RecursiveTask<Long> {
        @Override
        protected Long compute() {
            throw new IllegalStateException();
        }
    }

    static final class Event extends RecursiveTask<Long> {
        private final long key;
        private final long rounds;
        private final boolean hasChild;

        Event(long key, long rounds, boolean hasChild) {
            this.key = key;
            this.rounds = rounds;
            this.hasChild = hasChild;
        }

        @Override
        protected Long compute() {
            if (hasChild) {
                Fails child = new Fails();
                child.fork();
                child.quietlyJoin();
            }
            long word = key | 1;
            for (long i = 0; i < rounds; i++) {
                word ^= word << 13;
                word ^= word >>> 7;
                word ^= word << 17;
            }
            return word == 0 ? 0 : key + 1;
        }
    }

    public static void main(String[] words) {
        ForkJoinPool pool = new ForkJoinPool(Integer.parseInt(words[0]));
        int window = Integer.parseInt(words[1]);
        long count = Long.parseLong(words[2]);
        long rounds = Long.parseLong(words[3]);
        long failing = Long.parseLong(words[4]);
        ArrayDeque<ForkJoinTask<Long>> underWay = new ArrayDeque<>(window);
        long start = System.nanoTime();
        long right = 0;
        long told = 0;
        for (long key = 0; key < count || !underWay.isEmpty(); ) {
            if (key < count && underWay.size() < window) {
                underWay.add(pool.submit(new Event(key, rounds, failing != 0 && key % failing == 0)));
                key++;
            } else {
                if (underWay.poll().join() == told + 1) {
                    right++;
                }
                told++;
            }
        }
        long spent = System.nanoTime() - start;
        pool.shutdown();
        if (right != count) {
            throw new IllegalStateException();
        }
        System.out.println(count + " 1 " + spent);
    }
}
