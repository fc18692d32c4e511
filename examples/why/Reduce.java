import java.util.function.LongBinaryOperator;
import java.util.stream.LongStream;

/** A difference, and a sum from 1, over 0 to 999: what the parallel stream answers, and the sequential one. */
class Reduce {
    public static void main(String[] words) {
        answers("difference", 0, (a, b) -> a - b);
        answers("sum from 1", 1, Long::sum);
    }

    static void answers(String name, long identity, LongBinaryOperator operator) {
        long parallel = LongStream.range(0, 1000).parallel().reduce(identity, operator);
        long sequential = LongStream.range(0, 1000).reduce(identity, operator);
        System.out.println(name + ": " + parallel + ", sequential: " + sequential);
    }
}
