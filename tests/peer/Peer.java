/*
 * Test data of a real peer: files that another 32-bit EWAH library writes, and whether it reads what Zvonurel writes.
 *
 * The library is JavaEWAH 1.1.7 (Debian's libjavaewah-java), through its public calls. JAR is its archive, and OUT is
 * where `javac -cp JAR -d OUT Peer.java` put this program. The same seed gives the same bytes.
 *
 *   java -cp JAR:OUT Peer write DIR   writes DIR/files/NAME.ewah, each as `serialize` gives it, and DIR/rows.txt
 *   java -cp JAR:OUT Peer read DIR    reads each DIR/NAME.body and compares its rows with DIR/NAME.rows
 *
 * The rows of a file are computed with BitSet, apart from the library. Its toList() and the words must have the same
 * ones, or the program stops. A .body file is 32-bit numbers, highest byte first: the rows, the number of words, the
 * words. A .rows file is `-`, or `first-last,first-last,...`. `read` exits with 1 if a body differs or there is none.
 *
 * Where the library is odd:
 *   - addWord(word, n) keeps the bits behind the n that matter. toList() leaves them out, and cardinality() counts
 *     them. What is appended next makes them rows for both, or makes more segments than the bits have.
 *   - A word appended behind bits that are no multiple of 32 starts at the next multiple, but the bits grow by 32, so
 *     that they end within it. For a word of ones this is the same file as that of a run over the end.
 *   - threshold() rounds the bits up to a multiple of 32. setSizeInBits() behind a run of zeros makes too many bits.
 *   - shift() by a multiple of 32 leaves a wrong place of the last marker, and what is appended then spoils the rows.
 */

import com.googlecode.javaewah32.*;
import java.io.*;
import java.nio.*;
import java.nio.file.*;
import java.util.*;
import java.util.function.Consumer;
import java.util.stream.*;

public final class Peer {
    static final long SEED = 20_260_302;
    static final int WORD_BITS = 32, MOST_CLEAN = 65_535, CLEAN_SHIFT = 1, DIRTY_SHIFT = 17;
    static final int ONES = ~0, NOISE = 0xDEADBEEF, WEEK = 7 * 48;
    static final String OVER = "ones-over-the-end";

    /** A call on one of the library's bitmaps. */
    interface Call extends Consumer<EWAHCompressedBitmap32> {}

    final Random random = new Random(SEED);
    final Map<String, Integer> kinds = new HashMap<>();
    final StringBuilder lines = new StringBuilder("""
            # Peer.java wrote this and the files. NAME BITS REAL RANGES: the bits that the file says it has, the rows
            # that were meant, and which are set; - for none, refuse where the file can't be read as that many rows.
            """);
    final Path dir;

    Peer(String dir) {
        this.dir = Path.of(dir);
    }

    public static void main(String[] args) throws IOException {
        demand(args.length == 2 && List.of("write", "read").contains(args[0]), "say `write DIR` or `read DIR`");
        Peer peer = new Peer(args[1]);
        System.exit((args[0].equals("write") ? peer.write() : peer.read()) ? 0 : 1);
    }

    boolean write() throws IOException {
        Files.createDirectories(dir.resolve("files"));
        plain();
        onesOverTheEnd();
        appended();
        logical();
        thresholds();
        longRuns();
        refused();
        Files.writeString(dir.resolve("rows.txt"), lines);
        System.out.println(kinds.values().stream().mapToInt(n -> n).sum() + " files written");
        return true;
    }

    // ---- the cases

    void plain() throws IOException {
        keep("empty", made(), 0, rows());
        for (int rows : new int[] {1, 8, 31, 32, 33, 480, 1000, 1023, 1985}) {
            BitSet set = some(rows);
            keep("plain", of(set), rows, set);
        }
        BitSet set = some(300), cleared = some(200);
        List<Integer> order = set.stream().boxed().collect(Collectors.toList());
        Collections.shuffle(order, random);
        Call fill = b -> order.forEach(b::set), empty = b -> cleared.stream().forEach(b::clear);
        int past = MOST_CLEAN * WORD_BITS + 72;
        keep("set-and-cleared", made(fill, empty), 300, andNot(set, cleared));
        keep("shifted", of(range(2, 90)).shift(45), 135, range(47, 135));
        keep("longer", made(fill, b -> b.setSizeInBits(361, false)), 361, set);
        keep("longer", made(fill, b -> b.setSizeInBits(past, false)), past, set);
        keep("longer", made(b -> b.setSizeInBits(40, false)), 40, rows());
        keep("longer-with-ones", made(b -> b.setSizeInBits(40, true)), 40, range(0, 40));
        Call zeros = b -> b.clear(83);
        keep("too-many-bits", made(b -> b.set(5), zeros, b -> b.setSizeInBits(323, false)), 340, 323, rows(32));
        keep("too-many-bits", made(zeros, b -> b.setSizeInBits(128, false)), 148, 128, rows());
    }

    void onesOverTheEnd() throws IOException {
        int past = (MOST_CLEAN + 1) * WORD_BITS + 8;
        Call run = b -> b.addStreamOfEmptyWords(true, MOST_CLEAN + 1);
        keep(OVER, appending(8, ONES), 8, range(0, 8));
        keep(OVER, appending(8, ONES, ONES), 40, range(0, 40));
        keep(OVER, appending(31, 0, ONES), 63, range(32, 63));
        keep(OVER, appending(4, 8, ONES), 36, rows(8, 0xF));
        keep(OVER, appending(1, NOISE, 0, 5, ONES, ONES), 129, rows(NOISE, 0, 5, ONES, 1));
        keep(OVER, made(run, b -> b.addWord(ONES, 8)), past, range(0, past));
        keep(OVER, appending(8, ONES, ONES).shift(3), 43, range(3, 43));
        // Ones appended behind row 3 were meant as rows 32 to 63, but this is the fourth file again: rows 32 to 35.
        byte[] fourth = bytes(appending(4, 8, ONES)), again = bytes(made(b -> b.set(3), b -> b.addWord(ONES)));
        demand(Arrays.equals(fourth, again), "the two files differ, and should be two cases");
    }

    void appended() throws IOException {
        int[] words = {0, 0, NOISE, ONES, ONES, 0x7F};
        var lent = of(rows(NOISE, 0x22, 0x1FF));
        Call ones = b -> b.addStreamOfEmptyWords(true, 2), zeros = b -> b.addStreamOfEmptyWords(false, 3);
        Call stream = b -> b.addStreamOfLiteralWords(lent.getEWAHIterator().buffer(), 1, 3);
        Call negated = b -> b.addStreamOfNegatedLiteralWords(lent.getEWAHIterator().buffer(), 1, 3);
        keep("appended-words", appending(WORD_BITS, words), 192, 167, rows(words));
        keep("appended-words", made(b -> b.addLiteralWord(0), b -> b.addLiteralWord(ONES)), 64, rows(0, ONES));
        keep("appended-bits", appending(7, words), 167, rows(words));
        keep("appended-streams", made(ones, zeros, stream), 256, 233, rows(ONES, ONES, 0, 0, 0, NOISE, 0x22, 0x1FF));
        keep("appended-streams", made(negated), 96, rows(~NOISE, ~0x22, ~0x1FF));
        keep("appended-streams", made(negated, b -> b.setSizeInBitsWithinLastWord(74)), 74, rows(~NOISE, ~0x22, 512));
        keep("appended-too-few-bits", made(b -> b.set(3), b -> b.addWord(1)), 36, 64, rows(8, 1));
    }

    void logical() throws IOException {
        for (int[] rows : new int[][] {{WEEK, WEEK}, {40, 500}, {775, 264}}) {
            BitSet x = some(rows[0]), y = some(rows[1]);
            int most = Math.max(rows[0], rows[1]);
            keep("and", of(x).and(of(y)), most, atLeast(2, x, y));
            keep("or", of(x).or(of(y)), most, atLeast(1, x, y));
            keep("xor", of(x).xor(of(y)), most, andNot(atLeast(1, x, y), atLeast(2, x, y)));
            keep("and-not", of(x).andNot(of(y)), most, andNot(x, y));
            keep("not", then(of(x), b -> b.not()), rows[0], andNot(range(0, rows[0]), x));
        }
    }

    /** At least t of n bitmaps, each with as many rows as the one before or 37 more. */
    void thresholds() throws IOException {
        for (int[] ask : new int[][] {{5, 12, 0}, {8, 12, 0}, {1, 2, 0}, {3, 3, 37}, {3, 7, 37}, {33, 64, 0}}) {
            int t = ask[0], n = ask[1], more = ask[2], most = WEEK + more * (n - 1);
            BitSet[] sets = IntStream.range(0, n).mapToObj(i -> some(WEEK + more * i)).toArray(BitSet[]::new);
            var bitmaps = Stream.of(sets).map(Peer::of).toArray(EWAHCompressedBitmap32[]::new);
            var answer = EWAHCompressedBitmap32.threshold(t, bitmaps);
            keep("threshold", answer, segments(most) * WORD_BITS, most, atLeast(t, sets));
        }
    }

    void longRuns() throws IOException {
        for (int segments : new int[] {MOST_CLEAN, MOST_CLEAN + 1, 2 * MOST_CLEAN + 1}) {
            int rows = segments * WORD_BITS;
            keep("long-run-of-zeros", made(b -> b.addStreamOfEmptyWords(false, segments)), rows, rows());
            keep("long-run-of-ones", made(b -> b.addStreamOfEmptyWords(true, segments)), rows, range(0, rows));
        }
        int row = (2 * MOST_CLEAN + 1) * WORD_BITS + 40;
        keep("long-run-first", made(b -> b.set(row)), row + 1, range(row, row + 1));
    }

    void refused() throws IOException {
        var over = appending(8, ONES, ONES);
        var not = IteratorAggregation32.not(of(rows(8, 0x80)).getIteratingRLW());
        refuse("bits-behind-the-end", appending(8, 0xFFFFFF00), 8);
        refuse("bits-behind-the-end", appending(8, 5, NOISE), 40);
        refuse("bits-behind-the-end", made(b -> b.set(3), b -> b.addWord(1 << 31)), 64);
        refuse("bits-behind-the-end", appending(8, ONES).shift(8), 16);
        refuse("too-many-segments", made(b -> b.addWord(ONES, 8), b -> b.addWord(ONES, 8)), 16);
        refuse("too-many-segments", made(b -> b.addWord(0, 1), b -> b.addWord(0, 1), b -> b.set(40)), 41);
        refuse("too-few-segments", made(b -> b.addWord(5, 40)), 40);
        refuse("rows-not-meant", EWAHCompressedBitmap32.threshold(2, over, over, over), 40);
        refuse("rows-not-meant", EWAHCompressedBitmap32.threshold(0, over, over), 40);
        refuse("rows-not-meant", IteratorUtil32.materialize(not), 40);
        refuse("wrong-last-marker", of(range(0, 64)).shift(32), 96);
        refuse("wrong-last-marker", then(of(range(0, 64)).shift(32), b -> b.set(130)), 131);
    }

    // ---- rows, apart from the library

    /** Stretches of rows, most of them short; the last row is set. */
    BitSet some(int rows) {
        BitSet set = range(rows - 1, rows);
        boolean value = random.nextBoolean();
        for (int first = 0, end; first < rows - 1; first = end, value = !value) {
            end = Math.min(rows - 1, first + 1 + random.nextInt(random.nextInt(3) == 0 ? 150 : 9));
            set.set(first, end, value);
        }
        return set;
    }

    static BitSet range(int first, int end) {
        BitSet set = new BitSet();
        set.set(first, end);
        return set;
    }

    static BitSet rows(int... words) {
        ByteBuffer bytes = ByteBuffer.allocate(Integer.BYTES * words.length).order(ByteOrder.LITTLE_ENDIAN);
        bytes.asIntBuffer().put(words);
        return BitSet.valueOf(bytes);
    }

    static BitSet andNot(BitSet x, BitSet y) {
        return x.stream().filter(row -> !y.get(row)).collect(BitSet::new, BitSet::set, BitSet::or);
    }

    static BitSet atLeast(int t, BitSet... sets) {
        int most = Stream.of(sets).mapToInt(BitSet::length).max().orElse(0);
        return IntStream.range(0, most).filter(row -> Stream.of(sets).filter(set -> set.get(row)).count() >= t)
                .collect(BitSet::new, BitSet::set, BitSet::or);
    }

    static int segments(int rows) {
        return (rows + WORD_BITS - 1) / WORD_BITS;
    }

    static String ranges(BitSet set) {
        StringJoiner text = new StringJoiner(",").setEmptyValue("-");
        for (int first = set.nextSetBit(0), end; first >= 0; first = set.nextSetBit(end)) {
            end = set.nextClearBit(first);
            text.add(first + "-" + (end - 1));
        }
        return text.toString();
    }

    // ---- the library's bitmaps

    static EWAHCompressedBitmap32 made(Call... calls) {
        return then(new EWAHCompressedBitmap32(), calls);
    }

    static EWAHCompressedBitmap32 then(EWAHCompressedBitmap32 bitmap, Call... calls) {
        Stream.of(calls).forEach(call -> call.accept(bitmap));
        return bitmap;
    }

    static EWAHCompressedBitmap32 of(BitSet set) {
        return made(b -> set.stream().forEach(b::set));
    }

    /** Words appended one by one; of the last one so many bits matter. */
    static EWAHCompressedBitmap32 appending(int bits, int... words) {
        int last = words.length - 1;
        return made(b -> IntStream.of(words).limit(last).forEach(b::addWord), b -> b.addWord(words[last], bits));
    }

    static BitSet listed(EWAHCompressedBitmap32 bitmap) {
        return bitmap.toList().stream().collect(BitSet::new, BitSet::set, BitSet::or);
    }

    static byte[] bytes(EWAHCompressedBitmap32 bitmap) throws IOException {
        ByteArrayOutputStream file = new ByteArrayOutputStream();
        bitmap.serialize(new DataOutputStream(file));
        return file.toByteArray();
    }

    // ---- files and bodies

    /** What a file says; or a body, which is a file without the place of the last marker. */
    static final class Said {
        final int bits, stated;
        final BitSet rows = new BitSet();
        int segments, lastMarker, lastDirty;

        Said(byte[] bytes) {
            IntBuffer in = ByteBuffer.wrap(bytes).asIntBuffer();
            bits = in.get();
            int words = in.get(), start = in.position();
            while (in.position() < start + words) {
                lastMarker = in.position() - start;
                int marker = in.get(), clean = marker >>> CLEAN_SHIFT & MOST_CLEAN;
                rows.set(WORD_BITS * segments, WORD_BITS * (segments + clean), (marker & 1) == 1);
                segments += clean;
                lastDirty = marker >>> DIRTY_SHIFT;
                for (int end = segments + lastDirty; segments < end; segments++) {
                    int first = WORD_BITS * segments;
                    rows(in.get()).stream().forEach(bit -> rows.set(first + bit));
                }
            }
            stated = in.hasRemaining() ? in.get() : lastMarker;
        }

        String fault(int real) {
            return segments > Peer.segments(bits) ? "too-many-segments"
                    : segments < Peer.segments(bits) ? "too-few-segments"
                    : rows.length() > bits && lastDirty > 0 ? "bits-behind-the-end"
                    : rows.get(0, bits).length() > real ? "rows-not-meant"
                    : stated != lastMarker ? "wrong-last-marker"
                    : rows.length() > bits ? OVER : "";
        }
    }

    /** Keeps a case with so many bits, all of them meant, and these rows. */
    void keep(String kind, EWAHCompressedBitmap32 bitmap, int bits, BitSet rows) throws IOException {
        keep(kind, bitmap, bits, bits, rows);
    }

    void keep(String kind, EWAHCompressedBitmap32 bitmap, int bits, int real, BitSet rows) throws IOException {
        Said said = new Said(bytes(bitmap));
        demand(said.bits == bits, kind + ": the file says " + said.bits + " bits");
        demand(said.fault(real).equals(kind.equals(OVER) ? OVER : ""), kind + ": the fault is " + said.fault(real));
        demand(said.rows.get(0, bits).equals(rows), kind + ": the words set " + ranges(said.rows));
        demand(listed(bitmap).equals(rows), kind + ": the library lists " + ranges(listed(bitmap)));
        file(kind, bitmap, real, ranges(rows));
    }

    /** Keeps a case to be refused where so many rows were meant. Its kind names the first fault. */
    void refuse(String kind, EWAHCompressedBitmap32 bitmap, int real) throws IOException {
        String fault = new Said(bytes(bitmap)).fault(real);
        demand(fault.equals(kind), kind + ": the fault is " + fault);
        file(kind, bitmap, real, "refuse");
    }

    void file(String kind, EWAHCompressedBitmap32 bitmap, int real, String ranges) throws IOException {
        String name = String.format("%s-%02d", kind, kinds.merge(kind, 1, Integer::sum));
        Files.write(dir.resolve("files").resolve(name + ".ewah"), bytes(bitmap));
        lines.append(String.join(" ", name, "" + bitmap.sizeInBits(), "" + real, ranges)).append('\n');
    }

    boolean read() throws IOException {
        String[] bodies = dir.toFile().list((folder, name) -> name.endsWith(".body"));
        demand(bodies != null && bodies.length > 0, "there is no body in " + dir);
        Arrays.sort(bodies);
        int differ = 0;
        for (String body : bodies) {
            String told = told(Files.readAllBytes(dir.resolve(body)));
            String want = Files.readString(dir.resolve(body.replaceAll("body$", "rows"))).strip();
            if (!told.equals(want)) {
                System.out.println(body + ": " + told + ", and not " + want);
                differ++;
            }
        }
        System.out.println(bodies.length + " bodies read, " + differ + " differ");
        return differ == 0;
    }

    /** The rows that the library lists of a body, and how many it counts where that is another number. */
    static String told(byte[] body) throws IOException {
        ByteBuffer file = ByteBuffer.allocate(body.length + Integer.BYTES).put(body).putInt(new Said(body).lastMarker);
        var bitmap = made();
        bitmap.deserialize(new DataInputStream(new ByteArrayInputStream(file.array())));
        BitSet rows = listed(bitmap);
        int count = bitmap.cardinality();
        return ranges(rows) + (count == rows.cardinality() ? "" : " with a count of " + count);
    }

    static void demand(boolean holds, String otherwise) {
        if (!holds) {
            throw new IllegalStateException(otherwise);
        }
    }
}
