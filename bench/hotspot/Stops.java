import java.lang.management.ManagementFactory;
import java.lang.management.MemoryPoolMXBean;
import java.lang.reflect.Executable;
import java.util.ArrayList;
import java.util.List;
import java.util.concurrent.locks.LockSupport;
import jdk.incubator.foreign.ResourceScope;
import sun.hotspot.WhiteBox;

/**
 * Times stops of HotSpot 17: Stops KIND THREADS STOPS ARG, with the words of bench_running, prints nanoseconds of each stop.
 *
 * KIND 6 is a handshake of all threads, 7 an operation at a safepoint, 8 a method's code invalidated and freed. Where ARG is 1 the
 * threads are parked, which HotSpot takes as it takes native code; else each runs a loop with a poll. It stops after six seconds.
 */
public class Stops {
    private static final long MOST_NANOSECONDS = 6_000_000_000L;
    private static final int MOST_SWEEPS = 64;
    private static final int MOST_RESTS = 1_000;

    private static final WhiteBox HOTSPOT = new WhiteBox();
    private static volatile boolean ends;
    private static volatile long kept;

    /** Does it once, and says how long it took, or less than 0 where it came to nothing. */
    private interface Stop {
        long nanoseconds() throws Exception;
    }

    public static void main(String[] words) throws Exception {
        int kind = Integer.parseInt(words[0]);
        boolean parked = words[3].equals("1");
        begin(Integer.parseInt(words[1]), parked ? Stops::park : Stops::run);
        Stop stop = switch (kind) {
            case 6 -> () -> timed(() -> ResourceScope.newSharedScope().close());
            case 7 -> () -> timed(HOTSPOT::forceSafepoint);
            case 8 -> Stops::reclaim;
            default -> throw new IllegalArgumentException(words[0]);
        };
        warm(stop, parked ? 500 : 5);
        System.out.println(String.join(" ", samples(stop, Integer.parseInt(words[2]))));
        System.exit(0);
    }

    private static void begin(int threads, Runnable loop) throws InterruptedException {
        for (int i = 0; i < threads; i++) {
            Thread thread = new Thread(loop);
            thread.setDaemon(true);
            thread.start();
        }
        Thread.sleep(300);
    }

    private static void park() {
        while (!ends) LockSupport.park();
    }

    private static void run() {
        long x = 1;
        while (!ends) x = x * 31 + 7;
        kept = x;
    }

    private static long timed(Runnable work) {
        long begun = System.nanoTime();
        work.run();
        return System.nanoTime() - begun;
    }

    private static void warm(Stop stop, int turns) throws Exception {
        long end = System.nanoTime() + MOST_NANOSECONDS / 4;
        for (int i = 0; i < turns && System.nanoTime() < end; i++) stop.nanoseconds();
    }

    private static List<String> samples(Stop stop, int most) throws Exception {
        List<String> all = new ArrayList<>();
        long end = System.nanoTime() + MOST_NANOSECONDS;
        for (int i = 0; i < most && System.nanoTime() < end; i++) {
            long took = stop.nanoseconds();
            if (took >= 0) all.add(Long.toString(took));
        }
        return all;
    }

    private static int method(int x) {
        return x * 31 + 7;
    }

    /** Has the method compiled, and says whether it was. The compiler may refuse that, and then tells nobody. */
    private static boolean isCompiled(Executable method) throws Exception {
        HOTSPOT.compile(method);
        for (int i = 0; i < MOST_RESTS && !HOTSPOT.isCompiled(method); i++) Thread.sleep(1);
        return HOTSPOT.isCompiled(method);
    }

    /** Invalidates the code of a method, and sweeps until memory for code is free. That the code is made isn't timed, nor are the rests. */
    private static long reclaim() throws Exception {
        Executable method = Stops.class.getDeclaredMethod("method", int.class);
        if (!isCompiled(method)) return -1;
        long before = codeBytes();
        long took = timed(() -> HOTSPOT.invalidate(method));
        for (int i = 0; i < MOST_SWEEPS && codeBytes() >= before; i++) {
            // a sweeper that is asked before it waits again answers after a second
            Thread.sleep(2);
            took += timed(HOTSPOT::forceNMethodSweep);
        }
        return codeBytes() < before ? took : -1;
    }

    /** How many bytes all compiled code takes. */
    private static long codeBytes() {
        long sum = 0;
        for (MemoryPoolMXBean pool : ManagementFactory.getMemoryPoolMXBeans()) {
            if (pool.getName().startsWith("Code")) sum += pool.getUsage().getUsed();
        }
        return sum;
    }
}
