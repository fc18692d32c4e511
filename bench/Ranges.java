import java.util.Scanner;
import java.util.function.ToLongFunction;
import java.util.stream.LongStream;

/** Runs over a range by parallel streams, each warmed by eight runs. The common pool has as many threads as there are workers, the caller's among them. */
class Ranges {
    private static long answer(String work, long workers, long numbers, ToLongFunction<LongStream> sum) {
        LongStream range = LongStream.range(0, numbers);
        LongStream stream = workers == 1 ? range : range.parallel();
        if (work.equals("sum")) {
            return sum.applyAsLong(stream);
        }
        long limit = numbers / 10 * 4, half = numbers / 2;
        return switch (work) {
            case "limit" -> stream.map(x -> x * 3).limit(half).sum();
            case "skip" -> stream.map(x -> x * 3).skip(half).sum();
            case "takewhile" -> stream.map(x -> x * 3).takeWhile(x -> x < half * 3).sum();
            case "dropwhile" -> stream.map(x -> x * 3).dropWhile(x -> x < half * 3).sum();
            case "distinct" -> stream.map(x -> x % 1000).distinct().sum();
            default -> stream.filter(x -> limit < x).findFirst().getAsLong();
        };
    }

    /** Runs each line `CASE WORKERS NUMBERS` of standard input, where CASE is `sum`, `first` or a barrier, and prints its nanoseconds and its answer. */
    static void runCases(ToLongFunction<LongStream> sum) {
        Scanner lines = new Scanner(System.in);
        while (lines.hasNext()) {
            String work = lines.next();
            long workers = lines.nextLong();
            long numbers = lines.nextLong();
            for (int round = 0; round < 8; round++) {
                answer(work, workers, numbers / 10, sum);
            }
            long start = System.nanoTime();
            long answer = answer(work, workers, numbers, sum);
            System.out.println(work + "-" + workers + "x" + numbers + " " + (System.nanoTime() - start) + " " + answer);
        }
    }
}
