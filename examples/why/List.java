import java.util.stream.LongStream;

/** A list of ten million numbers, where 60 MB are allowed. */
class List {
    public static void main(String[] words) {
        System.out.println(LongStream.range(0, 10_000_000).parallel().toArray().length);
    }
}
