import java.io.BufferedReader;
import java.io.IOException;
import java.io.InputStreamReader;
import java.util.ArrayDeque;
import java.util.ArrayList;
import java.util.List;
import java.util.concurrent.CountedCompleter;
import java.util.concurrent.ForkJoinPool;
import java.util.concurrent.ForkJoinTask;

/**
 * Follows scripts of one worker, line by line, in a ForkJoinPool of Java's with one worker. Behind each line stands the reply that is due; the
 * first line at which Java's pool tells something else ends the program with status 1.
 */
class Follow {
    /** How long Java's pool has for a step, in milliseconds. */
    static final long LONGEST = 10_000;

    /** What one thread tells another. A queue of the library's would have the pool start a second worker while the first one waits there. */
    static class Mailbox<T> {
        final ArrayDeque<T> told = new ArrayDeque<>();

        synchronized void add(T message) {
            told.add(message);
            notifyAll();
        }

        /** The oldest message; null if there is none for so long. */
        synchronized T take() {
            long until = System.currentTimeMillis() + LONGEST;
            try {
                while (told.isEmpty() && System.currentTimeMillis() < until) {
                    wait(LONGEST);
                }
            } catch (InterruptedException interrupted) {
                throw new IllegalStateException(interrupted);
            }
            return told.poll();
        }
    }

    /** A task of a script: its body does what the script says, one line after another, and so does its action. */
    interface Scripted {
        int number();
    }

    @SuppressWarnings("serial")
    class Plain extends ForkJoinTask<Void> implements Scripted {
        final int number = tasks.size();

        @Override
        public int number() {
            return number;
        }

        @Override
        public Void getRawResult() {
            return null;
        }

        @Override
        protected void setRawResult(Void nothing) {
        }

        @Override
        protected boolean exec() {
            String[] end = body(number);
            if (end[2].equals("fail")) {
                completeExceptionally(new Failure(end[3]));
            }
            return true;
        }
    }

    @SuppressWarnings("serial")
    class Completer extends CountedCompleter<Void> implements Scripted {
        final int number = tasks.size();
        final boolean relays;

        Completer(CountedCompleter<?> parent, int count, boolean relays) {
            super(parent, count);
            this.relays = relays;
        }

        @Override
        public int number() {
            return number;
        }

        @Override
        public void compute() {
            String[] end = body(number);
            switch (end[2]) {
                case "quiet" -> { }
                case "try" -> tryComplete();
                case "pass" -> propagateCompletion();
                case "complete" -> complete(null);
                case "fail" -> completeExceptionally(new Failure(end[3]));
                default -> throw new IllegalArgumentException(end[2]);
            }
            happened.add("ended");
        }

        @Override
        public void onCompletion(CountedCompleter<?> caller) {
            happened.add("hook " + number);
            next();
        }

        @Override
        public boolean onExceptionalCompletion(Throwable thrown, CountedCompleter<?> caller) {
            return relays;
        }
    }

    @SuppressWarnings("serial")
    static class Failure extends RuntimeException {
        Failure(String code) {
            super(code, null, false, false);
        }
    }

    final ForkJoinPool pool;
    final List<ForkJoinTask<?>> tasks = new ArrayList<>();
    /** From whoever reads the script to the worker, and back. */
    final Mailbox<String[]> asked = new Mailbox<>();
    final Mailbox<String> happened = new Mailbox<>();
    /** How many bodies have begun. */
    int begun;

    Follow(boolean asyncMode) {
        pool = new ForkJoinPool(1, ForkJoinPool.defaultForkJoinWorkerThreadFactory, null, asyncMode);
    }

    // ---- what the worker does

    /** The next line. A worker whose script has ended stays where it is. */
    String[] next() {
        for (;;) {
            String[] words = asked.take();
            if (words != null) {
                return words;
            }
        }
    }

    /** Does what the script says until the body ends. */
    String[] body(int number) {
        begun++;
        happened.add("run " + number);
        for (;;) {
            String[] words = next();
            switch (words[0]) {
                case "fork" -> {
                    ForkJoinTask<?> task = make(words);
                    task.fork();
                    happened.add("task " + ((Scripted) task).number());
                }
                case "trigger" -> {
                    make(new String[] {"trigger", "0", words[2], "relay"});
                    happened.add("task " + (tasks.size() - 1));
                }
                case "join" -> {
                    int before = begun;
                    task(words[2]).quietlyJoin();
                    // Where it ran the task, the script joins it again.
                    if (begun == before) {
                        happened.add(status(task(words[2])));
                    }
                }
                case "add" -> {
                    completer(words[2]).addToPendingCount(Integer.parseInt(words[3]));
                    happened.add("count " + completer(words[2]).getPendingCount());
                }
                case "root" -> {
                    ForkJoinTask<?> root = completer(words[2]).getRoot();
                    String told = (root.isDone() ? "spent " : "root ") + ((Scripted) root).number();
                    completer(words[2]).quietlyCompleteRoot();
                    happened.add(root.isDone() ? told : "undone");
                }
                case "end" -> {
                    return words;
                }
                default -> throw new IllegalArgumentException(words[0]);
            }
        }
    }

    // ---- what the script names

    /** Makes the task of an accepting line: plain, a completer without a parent, or one with a parent or with none. */
    ForkJoinTask<?> make(String[] words) {
        int kind = words.length - 2;
        CountedCompleter<?> parent = kind == 3 && !words[2].equals("-") ? completer(words[2]) : null;
        ForkJoinTask<?> task = kind == 0
            ? new Plain()
            : new Completer(parent, Integer.parseInt(words[words.length - 2]), words[words.length - 1].equals("relay"));
        tasks.add(task);
        return task;
    }

    ForkJoinTask<?> task(String number) {
        return tasks.get(Integer.parseInt(number));
    }

    Completer completer(String number) {
        return (Completer) task(number);
    }

    static String status(ForkJoinTask<?> task) {
        if (!task.isDone()) {
            return "undone";
        }
        if (task.isCancelled()) {
            return "cancelled";
        }
        return task.isCompletedNormally() ? "normal" : "exceptional " + task.getException().getMessage();
    }

    // ---- what the pool tells

    String happens() {
        String found = happened.take();
        return found == null ? "nothing" : found;
    }

    /** The pending count of each completer, and -1 of one that is done. */
    List<Integer> counts() {
        List<Integer> counts = new ArrayList<>();
        for (ForkJoinTask<?> task : tasks) {
            counts.add(task instanceof Completer completer && !task.isDone() ? completer.getPendingCount() : -1);
        }
        return counts;
    }

    /** What a body or an action comes to when it ends: an action; an arrival that counted; a root that is done now; or nothing of these. */
    String end(String[] words, boolean isPlain) {
        List<Integer> before = counts();
        ForkJoinTask<?> plain = isPlain ? running.remove(running.size() - 1) : null;
        asked.add(words);
        if (isPlain) {
            long until = System.currentTimeMillis() + LONGEST;
            while (!plain.isDone() && System.currentTimeMillis() < until) {
                Thread.onSpinWait();
            }
            return plain.isDone() ? "done" : "undone";
        }
        if (words[0].equals("end")) {
            running.remove(running.size() - 1);
        }
        String found = happens();
        if (!found.equals("ended") || words[0].equals("end") && words[2].matches("quiet|fail")) {
            return found.equals("ended") ? "done" : found;
        }
        List<Integer> after = counts();
        for (int i = 0; i < before.size(); i++) {
            if (after.get(i) >= 0 && after.get(i) < before.get(i)) {
                return "counted " + i;
            }
        }
        // Inner completers stay undone, but for one that complete has made normal on the way.
        for (int i = 0; i < before.size(); i++) {
            boolean isRoot = tasks.get(i) instanceof Completer completer && completer.getCompleter() == null;
            if (isRoot && before.get(i) >= 0 && after.get(i) < 0) {
                return "root " + i;
            }
        }
        return "nothing";
    }

    /** The bodies that have begun and not ended, the newest last. */
    final List<ForkJoinTask<?>> running = new ArrayList<>();

    /** What Java's pool tells of a line; of a line that has no counterpart, what is due. */
    String tell(String[] words, String due) {
        switch (words[0]) {
            case "submit" -> {
                ForkJoinTask<?> task = make(words);
                pool.execute(task);
                return "task " + ((Scripted) task).number();
            }
            case "poll" -> {
                return due.startsWith("run ") ? begins(happens()) : due;
            }
            case "join" -> {
                asked.add(words);
                return begins(happens());
            }
            case "end", "hook" -> {
                return end(words, words[0].equals("end") && running.get(running.size() - 1) instanceof Plain);
            }
            case "cancel" -> {
                return task(words[1]).cancel(false) ? "yes" : "no";
            }
            case "fault" -> {
                boolean isDone = task(words[1]).isDone();
                task(words[1]).completeExceptionally(new Failure(words[2]));
                return isDone ? "no" : "yes";
            }
            case "state" -> {
                // A place is nothing that Java tells.
                return due.replaceFirst("(undone|normal|exceptional \\d+|cancelled)$", status(task(words[1])));
            }
            default -> {
                asked.add(words);
                return happens();
            }
        }
    }

    String begins(String told) {
        if (told.startsWith("run ")) {
            running.add(task(told.substring(4)));
        }
        return told;
    }

    public static void main(String[] args) throws IOException {
        BufferedReader lines = new BufferedReader(new InputStreamReader(System.in));
        Follow follow = null;
        int scripts = 0;
        int steps = 0;
        for (String line = lines.readLine(); line != null; line = lines.readLine()) {
            String[] parts = line.split(" > ");
            String[] words = parts[0].split(" ");
            if (parts.length == 1) {
                follow = new Follow(words[0].equals("async"));
                scripts++;
                continue;
            }
            steps++;
            String told = follow.tell(words, parts[1]);
            if (!told.equals(parts[1])) {
                System.out.println("script " + scripts + ", " + line + ": Java tells " + told);
                System.exit(1);
            }
        }
        System.out.println(scripts + " scripts, " + steps + " steps: Java tells the same");
        System.exit(0);
    }
}
