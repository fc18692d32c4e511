import java.util.Scanner;
import java.util.stream.LongStream;

/** The same calls by parallel streams; the common pool has as many threads as there are workers, the caller's among them. */
class Calls {
    private static long answer(String work, long workers, long numbers) {
        LongStream range = LongStream.range(0, numbers);
        LongStream items = (workers == 1 ? range : range.parallel()).filter(x -> x % 2 == 0).map(x -> x * 3);
        return switch (work) {
            case "sum" -> items.sum();
            case "none" -> items.anyMatch(x -> x > Long.MAX_VALUE - 1) ? 1 : 0;
            default -> items.toArray().length;
        };
    }

    public static void main(String[] args) {
        Scanner lines = new Scanner(System.in);
        while (lines.hasNext()) {
            String work = lines.next();
            long workers = lines.nextLong(), numbers = lines.nextLong(), calls = lines.nextLong(), least = Long.MAX_VALUE, answer = 0;
            for (long call = -20_000; call < calls; call++) {
                long start = System.nanoTime();
                answer = answer(work, workers, numbers);
                least = Math.min(least, System.nanoTime() - start);
            }
            System.out.println(work + "-" + workers + "x" + numbers + " " + least + " " + answer);
        }
    }
}
