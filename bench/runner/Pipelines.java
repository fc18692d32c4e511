import java.io.IOException;
import java.nio.charset.StandardCharsets;
import java.nio.file.Files;
import java.nio.file.Path;
import java.util.ArrayList;
import java.util.Arrays;
import java.util.LinkedHashMap;
import java.util.List;
import java.util.OptionalLong;
import java.util.function.Supplier;
import java.util.function.UnaryOperator;
import java.util.stream.Collectors;
import java.util.stream.LongStream;
import java.util.stream.Stream;

/**
 * Pipelines by Java's streams. Words: {@code warm} or {@code cold}, the pipeline's name, and its constants or its file.
 *
 * <p>Cold it runs once. Warm it runs for eight rounds and two seconds at least, each round with the text of its value, and writes
 * the nanoseconds of the best round to standard error. Where a pipeline has a parallel and a sequential form, both take turns.
 */
class Pipelines {
    static final int LEAST_ROUNDS = 8;
    static final long LEAST_NANOSECONDS = 2_000_000_000L;

    public static void main(String[] words) {
        List<Supplier<String>> forms = forms(words[1], Arrays.copyOfRange(words, 2, words.length));
        if (words[0].equals("cold")) {
            System.out.println(forms.get(0).get());
            return;
        }
        String answer = forms.get(0).get();
        long best = Long.MAX_VALUE;
        long start = System.nanoTime();
        for (int round = 0; round < LEAST_ROUNDS || System.nanoTime() - start < LEAST_NANOSECONDS; round++) {
            for (Supplier<String> form : forms) {
                long begin = System.nanoTime();
                String again = form.get();
                best = Math.min(best, System.nanoTime() - begin);
                if (!again.equals(answer)) {
                    throw new IllegalStateException(again);
                }
            }
        }
        System.out.println(answer);
        System.err.println(best);
    }

    /** The forms of a pipeline, the parallel one first. */
    static List<Supplier<String>> forms(String name, String[] words) {
        if (name.equals("lines")) {
            Path file = Path.of(words[0]);
            return List.of(() -> groupedLines(file, true), () -> groupedLines(file, false));
        }
        long[] n = Arrays.stream(words).mapToLong(Long::parseLong).toArray();
        return switch (name) {
            case "sum" -> List.of(() -> "" + range(n).sum());
            case "map-sum" -> List.of(() -> "" + range(n).map(x -> x * n[2]).sum());
            case "filter-sum" -> List.of(() -> "" + range(n).filter(x -> x % n[2] == 0).sum());
            case "map-filter-sum" -> List.of(() -> "" + range(n).map(x -> x * n[2]).filter(x -> x > n[3]).sum());
            case "mod-max" -> List.of(() -> text(range(n).map(x -> Math.floorMod(x, n[2])).max()));
            case "map-filter-max" -> List.of(() -> text(range(n).map(x -> x * n[2]).filter(x -> x % n[3] == 0).max()));
            case "group" -> List.of(() -> grouped(range(n), n[2]), () -> grouped(range(n).sequential(), n[2]));
            case "distinct" -> List.of(() -> distinct(range(n), n[2]), () -> distinct(range(n).sequential(), n[2]));
            case "list" -> List.of(() -> list(range(n)), () -> list(range(n).sequential()));
            default -> cuts(name, n);
        };
    }

    /** What changes how many items there are, in order. */
    static List<Supplier<String>> cuts(String name, long[] n) {
        UnaryOperator<LongStream> stages = switch (name) {
            case "repeat" -> numbers -> copies(numbers, n[2]).limit(n[3]).filter(x -> x % n[4] == 0);
            case "limit" -> numbers -> numbers.filter(x -> x % n[2] == 0).limit(n[3]);
            case "skip" -> numbers -> numbers.filter(x -> x % n[2] == 0).skip(n[3]);
            case "take-while" -> numbers -> numbers.map(x -> x * n[2]).takeWhile(x -> x < n[3]).filter(x -> x % n[4] == 0);
            case "drop-while" -> numbers -> numbers.map(x -> x * n[2]).dropWhile(x -> x < n[3]).filter(x -> x % n[4] == 0);
            case "few-distinct", "all-distinct" -> numbers -> numbers.map(x -> Math.floorMod(x, n[2])).distinct();
            default -> throw new IllegalArgumentException(name);
        };
        return List.of(() -> "" + stages.apply(range(n)).sum(), () -> "" + stages.apply(range(n).sequential()).sum());
    }

    static LongStream copies(LongStream numbers, long times) {
        return numbers.mapMulti((x, out) -> {
            for (long i = 0; i < times; i++) {
                out.accept(x);
            }
        });
    }

    static LongStream range(long[] n) {
        return LongStream.range(n[0], n[1]).parallel();
    }

    static String text(OptionalLong value) {
        return value.isPresent() ? "Optional[" + value.getAsLong() + "]" : "Optional.empty";
    }

    static String grouped(LongStream numbers, long divisor) {
        return numbers.boxed()
            .collect(Collectors.groupingBy(x -> Math.floorMod(x, divisor), LinkedHashMap::new, Collectors.counting()))
            .toString();
    }

    static String distinct(LongStream numbers, long divisor) {
        return "" + numbers.map(x -> Math.floorMod(x, divisor)).distinct().count();
    }

    static String list(LongStream numbers) {
        return numbers.boxed().collect(Collectors.toList()).toString();
    }

    /** Reads a pipeline file of lines and groups them. The lines are ASCII, so a text has as many bytes as characters. */
    static String groupedLines(Path file, boolean parallel) {
        List<String> lines = lines(file);
        Stream<String> texts = parallel ? lines.parallelStream() : lines.stream();
        return texts.collect(Collectors.groupingBy(String::length, LinkedHashMap::new, Collectors.counting())).toString();
    }

    /** The texts of a pipeline file: as many as its second line says, from its third line on. */
    static List<String> lines(Path file) {
        String text;
        try {
            text = new String(Files.readAllBytes(file), StandardCharsets.UTF_8);
        } catch (IOException e) {
            throw new IllegalStateException(e);
        }
        int at = text.indexOf('\n') + 1;
        int end = text.indexOf('\n', at);
        int count = Integer.parseInt(text.substring(at, end).split(" ")[1]);
        List<String> lines = new ArrayList<>(count);
        while (lines.size() < count) {
            at = end + 1;
            end = text.indexOf('\n', at);
            lines.add(text.substring(at, end));
        }
        return lines;
    }
}
