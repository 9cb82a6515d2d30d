import java.io.FileDescriptor;
import java.io.FileInputStream;
import java.io.FileOutputStream;
import java.io.IOException;
import java.lang.invoke.MethodHandles;
import java.lang.invoke.VarHandle;
import java.util.Arrays;
import java.util.concurrent.CyclicBarrier;

/**
 * A peer in Java: does a job of version 1 on the JVM's heap. A field is a reference to null, a boxed
 * Long or an Obj, with volatile access.
 *
 *     Peer run < JOB                   prints what `rtheap run` prints, but for works and totals
 *     Peer time TAIL WARM TURNS < JOB  does the job, then each thread's last TAIL commands again and
 *                                      again: WARM times, and TURNS times more that are timed
 */
public final class Peer {
    static final VarHandle FIELD = MethodHandles.arrayElementVarHandle(Object[].class);
    static final int NEW = 0, SET = 1, NIL = 2, MOV = 3, GET = 4, PUT = 5, LEN = 6, SAME = 7, SAY = 8;
    static final int MOST = 131072, SUB = 32;

    /** An object: its name is thread * 2^20 + serial. */
    static final class Obj {
        final long name;
        final Object[] f;
        Obj(long name, int length) { this.name = name; f = new Object[length]; }
    }

    // A reply in the log: constant << 2, int v << 2 | 1, name << 2 | 2, (new name) << 3 | 3, (len k) << 3 | 7.
    static final long A_OK = 0, A_NIL = 1 << 2, A_NULL = 2 << 2, A_KIND = 3 << 2, A_RANGE = 4 << 2, A_YES = 5 << 2, A_NO = 6 << 2;

    static long shown(Object v) {
        if (v == null) return A_NIL;
        if (v instanceof Obj) return ((Obj) v).name << 2 | 2;
        return (Long) v << 2 | 1;
    }

    static final class Worker extends Thread {
        final int id, count;
        final int[] code; // op | d << 8 | s << 16
        final long[] imm, log;
        Obj shared;
        CyclicBarrier bar;
        long longest;
        final long[] times = new long[64 * SUB];

        Worker(int id, int count, int[] code, long[] imm, long[] log) {
            this.id = id; this.count = count; this.code = code; this.imm = imm; this.log = log;
        }

        @Override public void run() {
            try {
                bar.await();
            } catch (Exception e) {
                throw new IllegalStateException(e);
            }
            final Object[] reg = new Object[16];
            reg[0] = shared;
            final int from = Math.max(0, count - tail);
            long name = plain(reg, 0, (long) id << 20);
            for (int turn = 0; turn < warm; turn++) name = timed(reg, from, name, false);
            for (int turn = 0; turn < turns; turn++) name = timed(reg, from, name, true);
        }

        /** Does the commands from this one on, and says which name was made last. */
        private long plain(Object[] reg, int from, long name) {
            for (int k = from; k < count; k++) {
                int c = code[k];
                if ((c & 255) == NEW) name++;
                log[k] = step(reg, c, imm[k], name);
            }
            return name;
        }

        private long timed(Object[] reg, int from, long name, boolean kept) {
            long last = System.nanoTime();
            for (int k = from; k < count; k++) {
                int c = code[k];
                if ((c & 255) == NEW) name++;
                log[k] = step(reg, c, imm[k], name);
                long t = System.nanoTime(), time = t - last;
                last = t;
                if (kept) {
                    if (time > longest) longest = time;
                    times[bucket(time)]++;
                }
            }
            return name;
        }

        private static long step(Object[] reg, int c, long i, long name) {
            final int d = c >> 8 & 15, s = c >> 16 & 15;
            switch (c & 255) {
                case NEW:
                    reg[d] = new Obj(name, (int) i);
                    return name << 3 | 3;
                case SET:
                    reg[d] = Long.valueOf(i);
                    return A_OK;
                case NIL:
                    reg[d] = null;
                    return A_OK;
                case MOV:
                    reg[d] = reg[s];
                    return A_OK;
                case GET: {
                    Object o = reg[s];
                    if (o == null) return A_NULL;
                    if (!(o instanceof Obj)) return A_KIND;
                    Object[] f = ((Obj) o).f;
                    if (i >= f.length) return A_RANGE;
                    Object v = FIELD.getVolatile(f, (int) i);
                    reg[d] = v;
                    return shown(v);
                }
                case PUT: {
                    Object o = reg[s];
                    if (o == null) return A_NULL;
                    if (!(o instanceof Obj)) return A_KIND;
                    Object[] f = ((Obj) o).f;
                    if (i >= f.length) return A_RANGE;
                    FIELD.setVolatile(f, (int) i, reg[d]);
                    return A_OK;
                }
                case LEN: {
                    Object o = reg[s];
                    if (o == null) return A_NULL;
                    if (!(o instanceof Obj)) return A_KIND;
                    return (long) ((Obj) o).f.length << 3 | 7;
                }
                case SAME: {
                    Object a = reg[d], b = reg[s];
                    return a == b || a instanceof Long && a.equals(b) ? A_YES : A_NO;
                }
                default:
                    return shown(reg[s]);
            }
        }
    }

    static int bucket(long ns) {
        if (ns < SUB) return (int) ns;
        int e = 63 - Long.numberOfLeadingZeros(ns);
        return (e - 4) * SUB + (int) (ns >> (e - 5) & (SUB - 1));
    }
    static long bucketTop(int b) {
        if (b < SUB) return b;
        return ((long) (SUB + b % SUB + 1) << (b / SUB - 1)) - 1;
    }

    // Reading
    static byte[] in;
    static int at, len, line = 1;

    static RuntimeException bad() {
        System.err.println("peer: line " + line);
        System.exit(3);
        return new IllegalStateException();
    }
    static void slurp() throws IOException {
        try (FileInputStream f = new FileInputStream(FileDescriptor.in)) {
            in = new byte[Math.max(1 << 16, f.available() + 16)];
            int k;
            while ((k = f.read(in, len, in.length - 8 - len)) > 0) {
                len += k;
                if (len == in.length - 8) in = Arrays.copyOf(in, in.length * 2);
            }
        }
    }
    static long num() {
        final byte[] b = in;
        int q = at;
        if (b[q++] != ' ') throw bad();
        final int start = q;
        long v = 0;
        for (int x; (x = b[q] - '0') >= 0 && x <= 9; q++) v = v * 10 + x;
        if (q == start || q - start > 19) throw bad();
        at = q;
        return v;
    }
    static int reg() {
        long v = num();
        if (v < 0 || v > 15) throw bad();
        return (int) v;
    }
    static void word(String w) {
        for (int k = 0; k < w.length(); k++) if (in[at++] != w.charAt(k)) throw bad();
    }
    static long field(String w) { word(w); return num(); }

    static int threads, slots, tail, warm, turns;

    static Worker[] parse() {
        long n = field("rtheap 1 threads");
        field(" blocks"); field(" live"); field(" object");
        long s = field(" shared");
        if (in[at++] != '\n' || n < 1 || n > 16 || s > 1024) throw bad();
        threads = (int) n;
        slots = (int) s;
        Worker[] ws = new Worker[threads];
        int q = 0, count = 0;
        int[] code = null;
        long[] imm = null;
        boolean ended = false;
        while (at < len && !ended) {
            line++;
            int op, d = 0, r = 0;
            long i = 0;
            int w = (in[at] & 255) | (in[at + 1] & 255) << 8 | (in[at + 2] & 255) << 16;
            at += 3;
            switch (w) {
                case 'n' | 'e' << 8 | 'w' << 16:
                case 'a' | 'r' << 8 | 'r' << 16: op = NEW; d = reg(); i = num(); if (i < 0 || i > 65535) throw bad(); break;
                case 's' | 'e' << 8 | 't' << 16: op = SET; d = reg(); i = num(); if (i >>> 62 != 0) throw bad(); break;
                case 'n' | 'i' << 8 | 'l' << 16: op = NIL; d = reg(); break;
                case 'm' | 'o' << 8 | 'v' << 16: op = MOV; d = reg(); r = reg(); break;
                case 'g' | 'e' << 8 | 't' << 16: op = GET; d = reg(); r = reg(); i = num(); break;
                case 'p' | 'u' << 8 | 't' << 16: op = PUT; r = reg(); i = num(); d = reg(); break;
                case 'l' | 'e' << 8 | 'n' << 16: op = LEN; r = reg(); break;
                case 's' | 'a' << 8 | 'm' << 16: word("e"); op = SAME; d = reg(); r = reg(); break;
                case 's' | 'a' << 8 | 'y' << 16: op = SAY; r = reg(); break;
                case 't' | 'h' << 8 | 'r' << 16:
                case 'e' | 'n' << 8 | 'd' << 16:
                    if (code != null) {
                        ws[q - 1] = new Worker(q - 1, count, Arrays.copyOf(code, count), Arrays.copyOf(imm, count),
                            new long[count]);
                    }
                    if (w == ('e' | 'n' << 8 | 'd' << 16)) {
                        ended = true;
                        if (q != threads) throw bad();
                    } else {
                        word("ead");
                        if (num() != q || q++ == threads) throw bad();
                        if (code == null) { code = new int[MOST]; imm = new long[MOST]; }
                        count = 0;
                    }
                    op = -1;
                    break;
                default: throw bad();
            }
            if (op >= 0) {
                if (code == null || count == MOST) throw bad();
                code[count] = op | d << 8 | r << 16;
                imm[count++] = i;
            }
            if (at < len && in[at++] != '\n') throw bad();
        }
        if (!ended || at != len) throw bad();
        in = null;
        return ws;
    }

    // Writing
    static final int ROOM = 1 << 18;
    static final byte[] out = new byte[ROOM + 128];
    static final byte[] digits = new byte[20];
    static int pos;

    static byte[] ascii(String s) { return s.getBytes(java.nio.charset.StandardCharsets.US_ASCII); }
    static final byte[][] CONST = { ascii("ok"), ascii("nil"), ascii("null"), ascii("kind"), ascii("range"), ascii("yes"), ascii("no") };
    static final byte[] INT = ascii("int "), REF = ascii("ref "), LENGTH = ascii("len "), MADE = ascii("new "), WORK = ascii(" work 0");

    static void text(byte[] s) {
        for (int k = 0; k < s.length; k++) out[pos++] = s[k];
    }
    static void dec(long v) {
        int k = 20;
        while (v > Integer.MAX_VALUE) { digits[--k] = (byte) ('0' + v % 10); v /= 10; }
        int x = (int) v;
        do { digits[--k] = (byte) ('0' + x % 10); x /= 10; } while (x != 0);
        while (k < 20) out[pos++] = digits[k++];
    }
    static void name(long n) { dec(n >> 20); out[pos++] = '.'; dec(n & 0xFFFFF); }
    static void reply(long r) {
        switch ((int) r & 3) {
            case 1: text(INT); dec(r >>> 2); break;
            case 2: text(REF); name(r >>> 2); break;
            case 3:
                if ((r & 4) != 0) { text(LENGTH); dec(r >>> 3); }
                else { text(MADE); name(r >>> 3); text(WORK); }
                break;
            default: text(CONST[(int) (r >>> 2)]);
        }
        out[pos++] = '\n';
    }

    /** The least time that so many thousandths of all take at most, to a 32nd. */
    static long percentile(Worker[] ws, long thousandths) {
        long total = 0, sum = 0;
        for (Worker w : ws) for (long h : w.times) total += h;
        for (int b = 0; b < 64 * SUB; b++) {
            for (Worker w : ws) sum += w.times[b];
            if (sum * 1000 >= total * thousandths) return bucketTop(b);
        }
        return 0;
    }

    public static void main(String[] args) throws Exception {
        if (args.length == 4) {
            tail = Integer.parseInt(args[1]);
            warm = Integer.parseInt(args[2]);
            turns = Integer.parseInt(args[3]);
        }
        slurp();
        Worker[] ws = parse();
        Obj shared = new Obj((long) threads << 20, slots);
        CyclicBarrier bar = new CyclicBarrier(threads);
        for (Worker w : ws) { w.shared = shared; w.bar = bar; }
        for (Worker w : ws) w.start();
        for (Worker w : ws) w.join();
        if (turns > 0) {
            long longest = 0;
            for (Worker w : ws) longest = Math.max(longest, w.longest);
            System.out.println("median " + percentile(ws, 500) + " most " + percentile(ws, 999) + " longest " + longest);
            return;
        }
        try (FileOutputStream f = new FileOutputStream(FileDescriptor.out)) {
            for (Worker w : ws) {
                final byte[] head = ascii(w.id + " ");
                final long[] log = w.log;
                for (int k = 0; k < log.length; k++) {
                    text(head);
                    reply(log[k]);
                    if (pos > ROOM) { f.write(out, 0, pos); pos = 0; }
                }
            }
            text(ascii("end cycles 0 work 0\n"));
            f.write(out, 0, pos);
        }
    }
}
