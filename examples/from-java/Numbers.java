import static java.util.Comparator.reverseOrder;
import static java.util.stream.Collectors.*;

import java.io.IOException;
import java.io.UncheckedIOException;
import java.math.BigInteger;
import java.nio.charset.MalformedInputException;
import java.nio.file.Files;
import java.nio.file.Path;
import java.util.LinkedHashMap;
import java.util.Timer;
import java.util.TimerTask;
import java.util.concurrent.ForkJoinPool;
import java.util.concurrent.atomic.LongAdder;
import java.util.stream.LongStream;

/** Seven questions to the numbers of a file, or to ten million that are made. */
public class Numbers {
    static final String USAGE = "Usage: numbers [FILE] [--workers N] [--progress] [--help]";

    static Path file;

    static int workers = 4;

    static boolean isWatched;

    static final LongAdder READ = new LongAdder();

    static void read(String[] words) {
        for (int at = 0; at < words.length; at++) {
            if (words[at].equals("--help")) {
                System.out.println(USAGE);
                System.exit(0);
            } else if (words[at].equals("--workers")) {
                workers = Integer.parseInt(words[++at]);
            } else if (words[at].equals("--progress")) {
                isWatched = true;
            } else if (words[at].startsWith("-") || file != null) {
                throw new IllegalArgumentException(words[at]);
            } else {
                file = Path.of(words[at]);
            }
        }
        if (workers < 1 || workers > 64) {
            throw new IllegalArgumentException("workers: " + workers);
        }
    }

    static void watch() {
        TimerTask telling = new TimerTask() {
            @Override
            public void run() {
                System.err.println(READ.sum() + " items");
            }
        };
        new Timer(true).schedule(telling, 100, 100);
    }

    static LongStream numbers() {
        return isWatched ? source().peek(n -> READ.increment()) : source();
    }

    static LongStream source() {
        if (file == null) {
            LongStream range = LongStream.range(0, 10_000_000).parallel();
            return range.map(i -> (i * 7_919 + 13) % 1_000_003);
        }
        try {
            return Files.lines(file).parallel().mapToLong(Integer::parseInt);
        } catch (IOException error) {
            throw new UncheckedIOException(error);
        }
    }

    static String answers() {
        return "sum of the squares of even ones: "
            + numbers().filter(n -> n % 2 == 0).mapToObj(n -> BigInteger.valueOf(n * n))
                .reduce(BigInteger.ZERO, BigInteger::add)
            + "\nabove 900000: " + numbers().filter(n -> n > 900_000).count()
            + "\nfirst above 999990: "
            + numbers().filter(n -> n > 999_990).mapToObj(Long::toString).findFirst().orElse("none")
            + "\nall below 1000003: " + numbers().allMatch(n -> n < 1_000_003)
            + "\nthat differ: " + numbers().distinct().count()
            + "\ngreatest: " + numbers().boxed().sorted(reverseOrder()).limit(3).collect(toList())
            + "\nby last digit: " + numbers().boxed()
                .collect(groupingBy(n -> Math.floorMod(n, 10), LinkedHashMap::new, counting()));
    }

    static void end(int status, String why) {
        System.err.println("numbers: " + why);
        System.exit(status);
    }

    public static void main(String[] words) {
        try {
            read(words);
        } catch (RuntimeException error) {
            end(2, error.getMessage() + "\n" + USAGE);
        }
        if (isWatched) {
            watch();
        }
        try {
            System.out.println(new ForkJoinPool(workers).submit(Numbers::answers).get());
        } catch (Exception error) {
            Throwable why = error;
            while (why.getCause() != null) {
                why = why.getCause();
            }
            end(why instanceof NumberFormatException || why instanceof MalformedInputException ? 1 : 3, why.toString());
        }
    }
}
