import java.util.Arrays;
import java.util.stream.LongStream;

/** The first three remainders by 7 of 2^62 numbers. */
class Distinct {
    public static void main(String[] words) {
        System.out.println(Arrays.toString(LongStream.range(0, 1L << 62).parallel().map(x -> x % 7).distinct().limit(3).toArray()));
    }
}
