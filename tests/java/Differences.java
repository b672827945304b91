import java.util.ArrayList;
import java.util.List;
import java.util.concurrent.CountDownLatch;
import java.util.concurrent.CountedCompleter;
import java.util.concurrent.ForkJoinPool;
import java.util.concurrent.ForkJoinTask;
import java.util.concurrent.RecursiveAction;
import java.util.concurrent.atomic.AtomicBoolean;

/** What Java does where docs/JAVA.md says that the pool differs: a line for each row that can be seen from outside. */
class Differences {
    /** A completer that notes each of its actions under its name, and ends by tryComplete. */
    @SuppressWarnings("serial")
    static class Noted extends CountedCompleter<Void> {
        final String name;
        final List<String> seen;
        boolean passesOn = true;

        Noted(CountedCompleter<?> parent, int count, String name, List<String> seen) {
            super(parent, count);
            this.name = name;
            this.seen = seen;
        }

        @Override
        public void compute() {
            tryComplete();
        }

        @Override
        public void onCompletion(CountedCompleter<?> caller) {
            seen.add(name);
        }

        @Override
        public boolean onExceptionalCompletion(Throwable thrown, CountedCompleter<?> caller) {
            return passesOn;
        }
    }

    static void tell(String row, Object seen) {
        System.out.println(row + ": " + seen);
    }

    static ForkJoinPool pool(boolean asyncMode) {
        return new ForkJoinPool(1, ForkJoinPool.defaultForkJoinWorkerThreadFactory, null, asyncMode);
    }

    /** A child arrives at a parent with count 0 that has not ended, which then ends. */
    static void arrivalAtAParentThatHasNotEnded() {
        List<String> seen = new ArrayList<>();
        Noted parent = new Noted(null, 0, "parent", seen);
        new Noted(parent, 0, "child", seen).tryComplete();
        tell("the parent's action at the arrival", seen);
        parent.tryComplete();
        tell("and at its own end", seen);
    }

    static void arrivalTooMany() {
        List<String> seen = new ArrayList<>();
        Noted root = new Noted(null, 0, "root", seen);
        Noted parent = new Noted(root, 0, "parent", seen);
        parent.tryComplete();
        new Noted(parent, 0, "child", seen).tryComplete();
        tell("one arrival too many", seen);
    }

    static void arrivalAtADoneCompleter() {
        List<String> seen = new ArrayList<>();
        Noted root = new Noted(null, 0, "root", seen);
        Noted cancelled = new Noted(root, 1, "cancelled", seen);
        cancelled.cancel(false);
        new Noted(cancelled, 0, "first", seen).tryComplete();
        tell("an arrival at a cancelled completer with count 1 leaves", cancelled.getPendingCount());
        new Noted(cancelled, 0, "second", seen).tryComplete();
        tell("and the next one runs its action", seen);
        List<String> failed = new ArrayList<>();
        Noted exceptional = new Noted(null, 0, "exceptional", failed);
        exceptional.completeExceptionally(new IllegalStateException());
        new Noted(exceptional, 0, "child", failed).tryComplete();
        tell("so does one at an exceptional completer", failed);
        List<String> quiet = new ArrayList<>();
        Noted normal = new Noted(null, 0, "normal", quiet);
        normal.quietlyCompleteRoot();
        new Noted(normal, 0, "child", quiet).tryComplete();
        tell("and at one that quietlyCompleteRoot made normal", quiet);
    }

    static void endOfADoneCompleter() {
        List<String> seen = new ArrayList<>();
        Noted root = new Noted(null, 0, "root", seen);
        Noted cancelled = new Noted(root, 0, "cancelled", seen);
        cancelled.cancel(false);
        cancelled.tryComplete();
        tell("tryComplete of a cancelled completer", seen);
        List<String> set = new ArrayList<>();
        Noted above = new Noted(null, 0, "root", set);
        Noted completed = new Noted(above, 0, "cancelled", set);
        completed.cancel(false);
        completed.complete(null);
        tell("complete of a cancelled completer", set);
    }

    static void pendingCounts() {
        Noted completer = new Noted(null, 0, "completer", new ArrayList<>());
        completer.addToPendingCount(70_000);
        completer.addToPendingCount(-70_001);
        tell("70,000 and -70,001 added to a pending count", completer.getPendingCount());
    }

    /** In an action anything may be called. */
    static void forkInAnAction() {
        List<String> seen = new ArrayList<>();
        Noted forks = new Noted(null, 0, "forks", seen) {
            @Override
            public void onCompletion(CountedCompleter<?> caller) {
                Noted forked = new Noted(null, 0, "forked", seen);
                forked.fork();
                forked.join();
            }
        };
        ForkJoinPool pool = pool(false);
        pool.invoke(forks);
        pool.shutdown();
        tell("a fork and a join in an action", seen);
    }

    static void exceptions() {
        for (boolean passesOn : new boolean[] {true, false}) {
            Noted parent = new Noted(null, 1, "parent", new ArrayList<>());
            Noted child = new Noted(parent, 0, "child", new ArrayList<>());
            child.passesOn = passesOn;
            child.completeExceptionally(new IllegalStateException("9"));
            String passed = parent.isCompletedAbnormally() ? "fails with " + parent.getException().getMessage() : "stays";
            tell("where onExceptionalCompletion is " + passesOn + " the parent", passed);
        }
    }

    /** A body forks three tasks and joins the one in the middle. */
    static void joinOfTheMiddle() {
        for (boolean asyncMode : new boolean[] {true, false}) {
            List<String> ran = new ArrayList<>();
            List<String> before = new ArrayList<>();
            ForkJoinPool pool = pool(asyncMode);
            pool.invoke(action(() -> {
                ForkJoinTask<?> first = action(() -> ran.add("first")).fork();
                ForkJoinTask<?> middle = action(() -> ran.add("middle")).fork();
                ForkJoinTask<?> last = action(() -> ran.add("last")).fork();
                middle.join();
                before.addAll(ran);
                first.join();
                last.join();
            }));
            pool.shutdown();
            tell("ran by a join of the middle, " + (asyncMode ? "async" : "joining"), before);
        }
    }

    /** One of two workers joins a task that the other one runs, while a third task waits in its own queue. */
    static void joinOfAStolenTask() {
        ForkJoinPool pool = new ForkJoinPool(2);
        AtomicBoolean joins = new AtomicBoolean();
        AtomicBoolean ranMeanwhile = new AtomicBoolean();
        pool.invoke(action(() -> {
            Thread joiner = Thread.currentThread();
            CountDownLatch begun = new CountDownLatch(1);
            ForkJoinTask<?> stolen = action(() -> {
                begun.countDown();
                try {
                    Thread.sleep(200);
                } catch (InterruptedException e) {
                    throw new IllegalStateException(e);
                }
            }).fork();
            try {
                begun.await();
            } catch (InterruptedException e) {
                throw new IllegalStateException(e);
            }
            ForkJoinTask<?> queued = action(() -> ranMeanwhile.set(joins.get() && Thread.currentThread() == joiner)).fork();
            joins.set(true);
            stolen.join();
            joins.set(false);
            queued.join();
        }));
        pool.shutdown();
        tell("who joins a task that another worker runs, runs a queued one meanwhile", ranMeanwhile.get());
    }

    static RecursiveAction action(Runnable work) {
        return new RecursiveAction() {
            @Override
            protected void compute() {
                work.run();
            }
        };
    }

    /** The only worker runs a body while the pool is stopped, another one is queued, and a completer waits for an arrival. */
    static void shutdownNow() throws InterruptedException {
        ForkJoinPool pool = pool(true);
        CountDownLatch begun = new CountDownLatch(1);
        CountDownLatch stopped = new CountDownLatch(1);
        List<String> seen = new ArrayList<>();
        Noted waiting = new Noted(null, 1, "waiting", new ArrayList<>());
        pool.execute(waiting);
        ForkJoinTask<?> running = pool.submit(action(() -> {
            begun.countDown();
            boolean interrupted = false;
            while (stopped.getCount() > 0 || !interrupted) {
                interrupted |= Thread.interrupted();
                Thread.onSpinWait();
            }
            seen.add("is interrupted");
            action(() -> { }).fork();
            seen.add("forks");
        }));
        begun.await();
        ForkJoinTask<?> queued = pool.submit(action(() -> seen.add("queued")));
        pool.shutdownNow();
        tell("after shutdownNow a queued task is cancelled", queued.isCancelled());
        tell("and out of its queue", !pool.hasQueuedSubmissions());
        tell("isQuiescent while a body runs", pool.isQuiescent());
        stopped.countDown();
        running.join();
        tell("the running body", seen);
        tell("and ends", running.isCompletedNormally() ? "normally" : "otherwise");
        tell("a completer that waits for an arrival is done", waiting.isDone());
    }

    static void outcomes() {
        ForkJoinPool pool = pool(true);
        ForkJoinTask<Integer> task = pool.submit(() -> 17);
        tell("an outcome asked for twice", List.of(task.join(), task.join()));
        List<Integer> heard = new ArrayList<>();
        pool.invoke(action(() -> {
            ForkJoinTask<Integer> child = ForkJoinTask.adapt(() -> 5).fork();
            heard.add(child.join());
            heard.add(child.join());
        }));
        tell("a result joined twice", heard);
        CountDownLatch cancelled = new CountDownLatch(1);
        pool.execute(() -> {
            try {
                cancelled.await();
            } catch (InterruptedException e) {
                throw new IllegalStateException(e);
            }
        });
        ForkJoinTask<?> queued = pool.submit(() -> { });
        tell("a queued task can be cancelled from outside", queued.cancel(false) && queued.isCancelled());
        cancelled.countDown();
        pool.shutdown();
    }

    public static void main(String[] args) throws InterruptedException {
        arrivalAtAParentThatHasNotEnded();
        arrivalTooMany();
        arrivalAtADoneCompleter();
        endOfADoneCompleter();
        pendingCounts();
        forkInAnAction();
        exceptions();
        joinOfTheMiddle();
        joinOfAStolenTask();
        shutdownNow();
        outcomes();
    }
}
