import java.util.Arrays;
import java.util.Comparator;
import java.util.Scanner;
import java.util.stream.LongStream;
import java.util.stream.Stream;

/**
 * The same by streams, parallel ones where there is more than one worker: of `Long` objects, or, with the word `numbers`, of plain numbers,
 * which have no comparators. The common pool has as many threads as there are workers, the caller's among them.
 */
class Sorted {
    private static long[] scattered(int count) {
        long number = 1;
        long[] numbers = new long[count];
        for (int i = 0; i < count; i++) {
            number = number * 6364136223846793005L + 1442695040888963407L;
            numbers[i] = number >> 16;
        }
        return numbers;
    }

    private static long mixed(LongStream list) {
        return list.reduce(0, (mixed, number) -> mixed * 31 + number);
    }

    private static void tell(String work, long workers, int count, long time, long mixed) {
        System.out.println(work + "-" + workers + "x" + count + " " + time + " " + mixed);
    }

    private static void sortNumbers(String work, long workers, int count) {
        long[] numbers = scattered(count);
        long start = System.nanoTime();
        LongStream stream = LongStream.of(numbers);
        stream = (workers == 1 ? stream : stream.parallel()).sorted();
        long[] list = (work.equals("first") ? stream.limit(100) : stream).toArray();
        tell(work, workers, count, System.nanoTime() - start, mixed(LongStream.of(list)));
    }

    private static void sortObjects(String work, long workers, int count) {
        Long[] numbers = LongStream.of(scattered(count)).boxed().toArray(Long[]::new);
        long start = System.nanoTime();
        Stream<Long> stream = workers == 1 ? Arrays.stream(numbers) : Arrays.stream(numbers).parallel();
        boolean isByKey = work.equals("by_key");
        Stream<Long> sorted = isByKey ? stream.sorted(Comparator.comparingLong(x -> Math.floorMod(x, 1000L))) : stream.sorted();
        Object[] list = (work.equals("first") ? sorted.limit(100) : sorted).toArray();
        long time = System.nanoTime() - start;
        LongStream told = Arrays.stream(list).mapToLong(x -> (Long) x);
        // the keys alone: of equal ones Java 17's parallel sort was seen to change the order
        tell(work, workers, count, time, mixed(isByKey ? told.map(x -> Math.floorMod(x, 1000L)) : told));
    }

    public static void main(String[] args) {
        boolean areNumbers = args.length > 0 && args[0].equals("numbers");
        Scanner lines = new Scanner(System.in);
        while (lines.hasNext()) {
            String work = lines.next();
            long workers = lines.nextLong();
            int count = lines.nextInt();
            if (areNumbers) {
                sortNumbers(work, workers, count);
            } else {
                sortObjects(work, workers, count);
            }
        }
    }
}
