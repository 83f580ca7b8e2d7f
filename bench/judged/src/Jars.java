// The queues of libraries in jars, for Judged: JCTools, Conversant's and LMAX's Disruptor.
import com.conversantmedia.util.concurrent.DisruptorBlockingQueue;
import com.conversantmedia.util.concurrent.MultithreadConcurrentQueue;
import com.lmax.disruptor.InsufficientCapacityException;
import com.lmax.disruptor.RingBuffer;
import com.lmax.disruptor.Sequence;
import org.jctools.queues.MpmcArrayQueue;

public class Jars {
    static class Event {
        long item;
    }

    /** LMAX's ring for many senders; its one consumer is under a lock here, and asks whether the next place is
     * published. */
    static class Ring implements Judged.Queue {
        final RingBuffer<Event> ring = RingBuffer.createMultiProducer(Event::new, Judged.CAPACITY);
        final Sequence taken = new Sequence(-1);

        Ring() {
            ring.addGatingSequences(taken);
        }

        public boolean send(long item) {
            try {
                long place = ring.tryNext();
                ring.get(place).item = item;
                ring.publish(place);
                return true;
            } catch (InsufficientCapacityException full) {
                return false;
            }
        }

        public synchronized Long take() {
            long place = taken.get() + 1;
            if (!ring.isPublished(place)) return null;
            long item = ring.get(place).item;
            taken.set(place);
            return item;
        }
    }

    static Judged.Queue relaxed() {
        MpmcArrayQueue<Long> queue = new MpmcArrayQueue<>(Judged.CAPACITY);
        return new Judged.Queue() {
            public boolean send(long item) {
                return queue.relaxedOffer(item);
            }

            public Long take() {
                return queue.relaxedPoll();
            }
        };
    }

    static Judged.Queue conversant() {
        MultithreadConcurrentQueue<Long> queue = new MultithreadConcurrentQueue<>(Judged.CAPACITY);
        return new Judged.Queue() {
            public boolean send(long item) {
                return queue.offer(item);
            }

            public Long take() {
                return queue.poll();
            }
        };
    }

    static Judged.Queue make(String name) {
        switch (name) {
            case "MpmcArrayQueue": return Judged.of(new MpmcArrayQueue<>(Judged.CAPACITY));
            case "MpmcArrayQueue_relaxed": return relaxed();
            case "DisruptorBlockingQueue": return Judged.of(new DisruptorBlockingQueue<>(Judged.CAPACITY));
            case "MultithreadConcurrentQueue": return conversant();
            case "RingBuffer": return new Ring();
            default: throw new IllegalArgumentException("no queue is " + name);
        }
    }
}
