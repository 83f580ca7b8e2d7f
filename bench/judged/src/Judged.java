// Records the calls of threads on a queue in Java, as a log to be judged.
//
//     java Judged QUEUE LOG SENDERS TAKERS CALLS SEED
//
// The files of the threads are LOG with their numbers. Each thread makes this number of calls. A first round, whose
// files the second one writes anew, lets the compiler do its work. At the end the items that are left are taken,
// until two takes have found none. A call that unwinds, as those of a broken list may, hasn't returned, and is its
// thread's last one. The queues are those of java.util.concurrent and, by the class Jars, those of libraries.
import java.io.IOException;
import java.util.ArrayDeque;
import java.util.LinkedList;
import java.util.concurrent.ArrayBlockingQueue;
import java.util.concurrent.ConcurrentLinkedDeque;
import java.util.concurrent.ConcurrentLinkedQueue;
import java.util.concurrent.CyclicBarrier;
import java.util.concurrent.LinkedBlockingDeque;
import java.util.concurrent.LinkedBlockingQueue;
import java.util.concurrent.LinkedTransferQueue;
import java.util.concurrent.locks.LockSupport;

public class Judged {
    static final int CAPACITY = 16;

    /** How long a thread sleeps that found no item or no room, in nanoseconds. */
    static final long PAUSE = 20_000;

    /** A queue of numbers that many threads share. No call waits. */
    interface Queue {
        boolean send(long item);

        Long take();
    }

    static Queue of(java.util.Queue<Long> queue) {
        return new Queue() {
            public boolean send(long item) {
                return queue.offer(item);
            }

            public Long take() {
                return queue.poll();
            }
        };
    }

    static Queue make(String name) throws ReflectiveOperationException {
        switch (name) {
            case "ConcurrentLinkedQueue": return of(new ConcurrentLinkedQueue<>());
            case "ConcurrentLinkedDeque": return of(new ConcurrentLinkedDeque<>());
            case "LinkedTransferQueue": return of(new LinkedTransferQueue<>());
            case "ArrayBlockingQueue": return of(new ArrayBlockingQueue<>(CAPACITY));
            case "LinkedBlockingQueue": return of(new LinkedBlockingQueue<>(CAPACITY));
            case "LinkedBlockingDeque": return of(new LinkedBlockingDeque<>(CAPACITY));
            case "ArrayDeque": return of(new ArrayDeque<>());
            case "LinkedList": return of(new LinkedList<>());
            default: return (Queue) Class.forName("Jars").getDeclaredMethod("make", String.class).invoke(null, name);
        }
    }

    static boolean send(Queue queue, Recorder mine, long item) throws IOException {
        mine.begin("\"send\":%s", item);
        boolean sent = queue.send(item);
        mine.end(sent ? "\"send\":%s" : "\"send\":%s,\"answer\":\"full\"", item);
        return sent;
    }

    static boolean take(Queue queue, Recorder mine) throws IOException {
        mine.begin("\"take\":null");
        Long item = queue.take();
        mine.end("\"take\":%s", item);
        return item != null;
    }

    static void work(Queue queue, Recorder mine, int thread, int senders, int calls, long seed) throws IOException {
        long random = seed * 7919 + thread * 104729L + 1;
        for (long call = 0; call < calls; call++) {
            random ^= random << 13;
            random ^= random >>> 7;
            random ^= random << 17;
            for (long pause = random & 63; pause > 0; pause--) Thread.onSpinWait();
            boolean done = thread < senders ? send(queue, mine, (thread + 1L) << 32 | call) : take(queue, mine);
            if (!done || (random >>> 20) % 512 == 0) LockSupport.parkNanos(PAUSE);
        }
    }

    static void round(String name, String log, int senders, int threads, int calls, long seed) throws Exception {
        Queue queue = make(name);
        Thread[] running = new Thread[threads];
        CyclicBarrier there = new CyclicBarrier(threads);
        for (int at = 0; at < threads; at++) {
            int thread = at;
            Recorder mine = new Recorder(log + "." + thread, thread);
            running[thread] = new Thread(() -> {
                try {
                    there.await();
                    work(queue, mine, thread, senders, calls, seed);
                } catch (Exception unwound) {
                    System.err.println("Judged: a call unwound: " + unwound);
                }
            });
            running[thread].start();
        }
        for (Thread thread : running) thread.join();
        Recorder last = new Recorder(log + "." + threads, threads);
        try {
            int none = 0;
            for (int left = senders * calls + 2; none < 2 && left > 0; left--) none += take(queue, last) ? 0 : 1;
        } catch (RuntimeException unwound) {
            System.err.println("Judged: a call unwound: " + unwound);
        }
    }

    public static void main(String[] words) throws Exception {
        int senders = Integer.parseInt(words[2]), threads = senders + Integer.parseInt(words[3]);
        int calls = Integer.parseInt(words[4]);
        long seed = Long.parseLong(words[5]);
        round(words[0], words[1], senders, threads, calls, seed + 1);
        round(words[0], words[1], senders, threads, calls, seed);
    }
}
