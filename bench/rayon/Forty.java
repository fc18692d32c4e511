import static java.util.stream.Collectors.counting;
import static java.util.stream.Collectors.groupingBy;
import static java.util.stream.Collectors.joining;
import static java.util.stream.Collectors.partitioningBy;
import static java.util.stream.Collectors.summingLong;

import java.nio.file.Files;
import java.nio.file.Path;
import java.util.Arrays;
import java.util.Comparator;
import java.util.List;
import java.util.LongSummaryStatistics;
import java.util.Map;
import java.util.PriorityQueue;
import java.util.Scanner;
import java.util.function.LongPredicate;
import java.util.function.Function;
import java.util.stream.Collector;
import java.util.stream.LongStream;
import java.util.stream.Stream;

/** The forty tasks by Java's streams; the common pool has as many threads as there are workers, the caller's among them. Word: FOLDER. */
class Forty {
    record Order(long id, long customer, String country, long amount) {}

    static final int COUNT = 10_000_000, FRONT = 1_000_000;
    static long[] xs, ds;
    static String text;
    static List<String> words, others;
    static List<Order> orders;
    static boolean isParallel;

    static LongStream on(long[] numbers) {
        LongStream stream = LongStream.of(numbers);
        return isParallel ? stream.parallel() : stream;
    }

    static LongStream front(int number) {
        LongStream stream = Arrays.stream(xs, 0, number);
        return isParallel ? stream.parallel() : stream;
    }

    static <T> Stream<T> on(List<T> list) {
        return isParallel ? list.parallelStream() : list.stream();
    }

    static boolean even(long x) {
        return x % 2 == 0;
    }

    static long hit(int share) {
        return xs[COUNT / 1000 * share];
    }

    static boolean isDear(long x) {
        long y = x;
        for (int step = 0; step < 1000; step++) {
            y = Math.floorMod(y * 31 + 7, 1_000_003L);
        }
        return y < 500_001;
    }

    static long squares(LongStream numbers) {
        return numbers.filter(Forty::even).map(x -> x * x).sum();
    }

    static List<Long> best() {
        Collector<Long, PriorityQueue<Long>, List<Long>> best = Collector.of(PriorityQueue::new, Forty::put, (a, b) -> {
            b.forEach(x -> put(a, x));
            return a;
        }, heap -> heap.stream().sorted(Comparator.reverseOrder()).toList());
        return on(xs).boxed().collect(best);
    }

    static void put(PriorityQueue<Long> heap, long x) {
        if (heap.size() < 100) {
            heap.add(x);
        } else if (x > heap.peek()) {
            heap.poll();
            heap.add(x);
        }
    }

    static Object run(String task) {
        switch (task) {
            case "squares": return squares(on(xs));
            case "summary": return on(xs).summaryStatistics();
            case "greatest": return on(xs).map(x -> Math.floorMod(x * 7, 1000L)).max().getAsLong();
            case "copies": return on(xs).flatMap(x -> LongStream.of(x, x)).sum();
            case "limit": return on(xs).filter(Forty::even).limit(FRONT).sum();
            case "skip": return on(xs).filter(Forty::even).skip(FRONT).sum();
            case "takewhile": { long hit = hit(600); return on(xs).takeWhile(x -> x != hit).sum(); }
            case "dropwhile": { long hit = hit(600); return on(xs).dropWhile(x -> x != hit).sum(); }
            case "distinct-few": return on(xs).map(x -> Math.floorMod(x, 1000L)).distinct().count();
            case "distinct-list": return on(xs).map(x -> Math.floorMod(x, 100_000L)).distinct().toArray();
            case "distinct-all": return on(ds).distinct().count();
            case "sorted": return on(xs).sorted().toArray();
            case "sorted-by-key": return on(xs).boxed().sorted(Comparator.comparing(x -> Math.floorMod(x, 1000L))).toList();
            case "best-by-sort": return on(xs).boxed().sorted(Comparator.reverseOrder()).limit(100).toList();
            case "best": return best();
            case "list": return on(xs).map(x -> x * 3).toArray();
            case "list-half": return on(xs).filter(Forty::even).toArray();
            case "parts-counts": return on(xs).boxed().collect(partitioningBy(Forty::even, counting()));
            case "parts-lists": return on(xs).boxed().collect(partitioningBy(Forty::even));
            case "groups-10": return on(xs).boxed().collect(groupingBy(x -> Math.floorMod(x, 10L), counting()));
            case "groups-1000": return on(xs).boxed().collect(groupingBy(x -> Math.floorMod(x, 1000L), summingLong(x -> x)));
            case "groups-lists": return on(xs).boxed().collect(groupingBy(x -> Math.floorMod(x, 100_000L)));
            case "groups-all": return on(ds).boxed().collect(groupingBy(Function.identity(), counting()));
            case "groups-groups": return on(xs).boxed().collect(groupingBy(x -> Math.floorMod(x, 10L), groupingBy(x -> Math.floorMod(x, 100L), counting())));
            case "hit-early": return find(hit(1));
            case "hit-tenth": return find(hit(100));
            case "hit-late": return find(hit(600));
            case "hit-none": return find(Long.MAX_VALUE);
            case "matches": return matches(hit(600));
            case "dear-1000": return front(1000).filter(Forty::isDear).sum();
            case "dear-100": return front(100).filter(Forty::isDear).sum();
            case "uneven": return front(FRONT).filter(x -> x % 1000 != 0 || isDear(x)).sum();
            default: return task.startsWith("small-") ? squares(front(Integer.parseInt(task.substring(6)))) : texts(task);
        }
    }

    static long find(long wanted) {
        return on(xs).filter(x -> x == wanted).findFirst().orElse(-1);
    }

    static long[] matches(long wanted) {
        LongPredicate is = x -> x == wanted;
        boolean any = on(xs).anyMatch(is), none = on(xs).noneMatch(is), all = on(xs).allMatch(is.negate());
        return new long[] {any ? 1 : 0, none ? 1 : 0, all ? 1 : 0};
    }

    static Object texts(String task) {
        switch (task) {
            case "joining": return on(words).filter(word -> word.length() > 5).collect(joining(", "));
            case "words-by-length": {
                Stream<String> lines = isParallel ? text.lines().parallel() : text.lines();
                return lines.flatMap(line -> Arrays.stream(line.split(" "))).collect(groupingBy(word -> (long) word.length(), counting()));
            }
            case "words": return on(words).collect(groupingBy(Function.identity(), counting()));
            case "words-all": return on(others).collect(groupingBy(Function.identity(), counting()));
            case "distinct-words": return on(words).distinct().toList();
            case "sorted-words": return on(words).sorted().toList();
            case "orders-best": {
                Map<Long, Long> sums = on(orders).filter(order -> order.country().equals("DE")).collect(groupingBy(Order::customer, summingLong(Order::amount)));
                return sums.values().stream().sorted(Comparator.reverseOrder()).limit(5).toList();
            }
            default: return on(orders).sorted(Comparator.comparing(Order::country).thenComparing(Order::amount, Comparator.reverseOrder())).toList();
        }
    }

    static long number(String text) {
        long mixed = 0;
        for (int at = 0; at < text.length(); at++) {
            mixed = mixed * 31 + text.charAt(at);
        }
        return mixed;
    }

    static long list(LongStream numbers) {
        return numbers.sequential().reduce(0, (mixed, x) -> mixed * 31 + x);
    }

    /** A number that depends on the order of a list, and not on that of a map. */
    static long mixed(Object answer) {
        if (answer instanceof Long number) {
            return number;
        } else if (answer instanceof String word) {
            return number(word);
        } else if (answer instanceof Order order) {
            return order.id();
        } else if (answer instanceof long[] numbers) {
            return list(LongStream.of(numbers));
        } else if (answer instanceof LongSummaryStatistics all) {
            return list(LongStream.of(all.getCount(), all.getSum(), all.getMin(), all.getMax()));
        } else if (answer instanceof List<?> items) {
            return list(items.stream().mapToLong(Forty::mixed));
        }
        Map<?, ?> map = (Map<?, ?>) answer;
        if (map.containsKey(true)) {
            long no = mixed(map.get(false)), yes = mixed(map.get(true));
            return map.get(true) instanceof Long ? no * 31 + yes : no ^ yes;
        }
        return map.entrySet().stream().mapToLong(it -> (mixed(it.getKey()) * 0x9e3779b97f4a7c1L ^ mixed(it.getValue())) * 0xbf58476d1ce4e5L).sum();
    }

    static long different(long place) {
        long z = place * 0x9e3779b97f4a7c15L;
        z = (z ^ z >>> 30) * 0xbf58476d1ce4e5b9L;
        z = (z ^ z >>> 27) * 0x94d049bb133111ebL;
        return (z ^ z >>> 31) >>> 1;
    }

    static void read(Path folder) throws Exception {
        xs = new long[COUNT];
        ds = new long[COUNT];
        long state = 42;
        for (int at = 0; at < COUNT; at++) {
            state = state * 6364136223846793005L + 1442695040888963407L;
            xs[at] = state >> 24;
            ds[at] = different(at);
        }
        text = Files.readString(folder.resolve("words"));
        words = text.lines().flatMap(line -> Arrays.stream(line.split(" "))).toList();
        others = Files.lines(folder.resolve("others")).flatMap(line -> Arrays.stream(line.split(" "))).toList();
        orders = Files.lines(folder.resolve("orders")).map(line -> line.split(" ")).map(
                it -> new Order(Long.parseLong(it[0]), Long.parseLong(it[1]), it[2], Long.parseLong(it[3]))).toList();
    }

    static int calls(String task) {
        return switch (task) {
            case "small-10", "small-100", "small-1000" -> 20_000;
            case "small-10000", "small-100000" -> 1_000;
            case "dear-1000", "dear-100", "uneven" -> 20;
            default -> 3;
        };
    }

    public static void main(String[] args) throws Exception {
        read(Path.of(args[0]));
        Scanner lines = new Scanner(System.in);
        while (lines.hasNext()) {
            String task = lines.next();
            long workers = lines.nextLong(), least = Long.MAX_VALUE, mixed = 0;
            isParallel = workers > 1;
            for (int call = 0; call < calls(task); call++) {
                long start = System.nanoTime();
                Object answer = run(task);
                least = Math.min(least, System.nanoTime() - start);
                mixed = call == 0 ? mixed(answer) : mixed;
            }
            System.out.println(task + "-" + workers + " " + least + " " + mixed);
        }
    }
}
