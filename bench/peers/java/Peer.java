import java.util.Arrays;
import java.util.Locale;
import java.util.concurrent.ArrayBlockingQueue;
import java.util.concurrent.CountDownLatch;
import java.util.concurrent.CyclicBarrier;
import java.util.concurrent.Semaphore;
import java.util.concurrent.TimeUnit;
import java.util.concurrent.locks.ReentrantLock;

/**
 * Java's fair semaphore, fair lock and fair queue as a pool, its latch and its barrier. Whoever waits sleeps. The rounds and the rows are
 * those of crates/cqs_bench_calls; so many rounds are made before the first run, for the compiler.
 */
public final class Peer {
    /** A round, which may be interrupted. */
    private interface Round {
        void make() throws Exception;
    }

    /** Rounds on objects of their own, which are made before the clock starts. */
    private interface Rounds {
        Round[] of(int count) throws Exception;
    }

    private static final int SLEEP = 16;
    private static final int LIVE = 1000;
    private static final int MOST_OBJECTS = 1 << 14;

    private static int rounds = 500_000;
    private static int runs = 5;
    private static volatile long sink;

    public static void main(String[] words) throws Exception {
        if (words.length > 0) {
            rounds = Integer.parseInt(words[0]);
        }
        if (words.length > 1) {
            runs = Integer.parseInt(words[1]);
        }
        Semaphore one = new Semaphore(1, true);
        shared("free", 1, rounds, () -> {
            one.acquire();
            one.release();
        });
        ReentrantLock lock = new ReentrantLock(true);
        shared("mutex-free", 1, rounds, () -> {
            lock.lock();
            lock.unlock();
        });
        ArrayBlockingQueue<Integer> free = pool();
        shared("pool-free", 1, rounds, () -> free.put(free.take()));
        leave("leave", 0);
        leave("leave-behind", LIVE);
        for (int threads : new int[] {1, 2, 4}) {
            shared("contended", threads, rounds / SLEEP, () -> {
                one.acquire();
                work();
                one.release();
            });
        }
        for (int threads : new int[] {4, 8}) {
            ArrayBlockingQueue<Integer> items = pool();
            shared("pool", threads, rounds / SLEEP, () -> {
                Integer item = items.take();
                work();
                items.put(item);
            });
        }
        together("latch", count -> {
            Round[] made = new Round[count];
            for (int i = 0; i < count; i++) {
                CountDownLatch latch = new CountDownLatch(4);
                made[i] = () -> {
                    latch.countDown();
                    latch.await();
                };
            }
            return made;
        });
        together("barrier", count -> {
            Round[] made = new Round[count];
            for (int i = 0; i < count; i++) {
                CyclicBarrier barrier = new CyclicBarrier(4);
                made[i] = barrier::await;
            }
            return made;
        });
    }

    private static ArrayBlockingQueue<Integer> pool() {
        return new ArrayBlockingQueue<>(4, true, Arrays.asList(0, 1, 2, 3));
    }

    /** 100 steps of xorshift. */
    private static void work() {
        long word = sink | 1;
        for (int i = 0; i < 100; i++) {
            word ^= word << 13;
            word ^= word >>> 7;
            word ^= word << 17;
        }
        sink = word;
    }

    /** A waiter comes and leaves after a nanosecond, behind so many who wait. The clock is read in it. */
    private static void leave(String word, int live) throws Exception {
        Semaphore held = new Semaphore(0, true);
        Thread[] line = new Thread[live];
        for (int i = 0; i < live; i++) {
            line[i] = new Thread(held::acquireUninterruptibly);
            line[i].setDaemon(true);
            line[i].start();
        }
        while (held.getQueueLength() < live) {
            Thread.sleep(1);
        }
        shared(word, 1, live > 0 ? rounds / SLEEP : rounds, () -> held.tryAcquire(1, TimeUnit.NANOSECONDS));
        held.release(live);
    }

    /** A row of rounds that threads share. */
    private static void shared(String word, int threads, int count, Round round) throws Exception {
        row(word, threads, count, () -> {
            Thread[] crew = crew(threads, () -> {
                for (int i = 0; i < count / threads; i++) {
                    round.make();
                }
            });
            return clock(crew);
        });
    }

    /** A row of rounds that four threads make together. */
    private static void together(String word, Rounds made) throws Exception {
        int count = Math.min(rounds, MOST_OBJECTS);
        row(word, 4, count, () -> {
            Round[] all = made.of(count);
            return clock(crew(4, () -> {
                for (Round round : all) {
                    round.make();
                }
            }));
        });
    }

    private static Thread[] crew(int threads, Round part) {
        Thread[] crew = new Thread[threads];
        for (int t = 0; t < threads; t++) {
            crew[t] = new Thread(() -> {
                try {
                    part.make();
                } catch (Exception e) {
                    throw new IllegalStateException(e);
                }
            });
        }
        return crew;
    }

    /** The nanoseconds from the start of the first to the end of the last. */
    private static long clock(Thread[] crew) throws InterruptedException {
        long start = System.nanoTime();
        for (Thread thread : crew) {
            thread.start();
        }
        for (Thread thread : crew) {
            thread.join();
        }
        return System.nanoTime() - start;
    }

    private interface Run {
        long nanoseconds() throws Exception;
    }

    private static void row(String word, int threads, int count, Run run) throws Exception {
        run.nanoseconds();
        double[] each = new double[runs];
        for (int i = 0; i < runs; i++) {
            each[i] = (double) run.nanoseconds() / count;
        }
        Arrays.sort(each);
        System.out.printf(
                Locale.ROOT, "java\t%s\t%d\t%.2f\t%.2f\t%.2f\t%d%n", word, threads, each[0], each[runs / 2], each[runs - 1], count);
    }
}
