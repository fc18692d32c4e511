import static java.util.stream.Collectors.counting;
import static java.util.stream.Collectors.groupingBy;
import static java.util.stream.Collectors.joining;
import static java.util.stream.Collectors.summingLong;

import java.util.ArrayList;
import java.util.Arrays;
import java.util.Comparator;
import java.util.LinkedHashMap;
import java.util.List;
import java.util.Map;
import java.util.Scanner;
import java.util.function.Function;
import java.util.function.Supplier;
import java.util.stream.LongStream;
import java.util.stream.Stream;

/**
 * The same by streams, parallel ones where there is more than one worker. The common pool has as many threads as there are workers, the caller's
 * among them. A list of Java's has references, so nothing is cloned here.
 */
class Service {
    record Order(String customer, long cents) {}

    record Pair(long customer, long cents) {}

    private static long time;

    private static long scattered(int i) {
        return ((i * 2_654_435_761L) & 0xffff_ffffL) >> 8;
    }

    private static List<Order> orders(int count) {
        List<Order> orders = new ArrayList<>();
        for (int i = 0; i < count; i++) {
            orders.add(new Order("customer " + scattered(i) % 1000, scattered(i) / 1000 % 10_000));
        }
        return orders;
    }

    private static List<Pair> pairs(int count) {
        List<Pair> pairs = new ArrayList<>();
        for (int i = 0; i < count; i++) {
            pairs.add(new Pair(scattered(i) % 1000, scattered(i) / 1000 % 10_000));
        }
        return pairs;
    }

    private static String log(int count) {
        StringBuilder log = new StringBuilder();
        for (int i = 0; i < count; i++) {
            if (i >= count / 5 * 2 && i % 100 == 0) {
                log.append("ERROR request ").append(i).append(" failed\n");
            } else {
                log.append("INFO request ").append(i).append(" took ").append(scattered(i) % 1000).append(" ms\n");
            }
        }
        return log.toString();
    }

    private static long[] numbers(int count) {
        long[] numbers = new long[count];
        for (int i = 0; i < count; i++) {
            numbers[i] = i < count / 5 * 2 ? scattered(i) % 3 : 5;
        }
        return numbers;
    }

    /** Runs a task, keeps the nanoseconds, and tells of its answer. */
    private static <T> String timed(Supplier<T> task, Function<T, String> told) {
        long start = System.nanoTime();
        T answer = task.get();
        time = System.nanoTime() - start;
        return told.apply(answer);
    }

    private static <T> Stream<T> stream(List<T> list, int workers) {
        return workers == 1 ? list.stream() : list.parallelStream();
    }

    private static Stream<String> lines(String log, int workers) {
        return workers == 1 ? log.lines() : log.lines().parallel();
    }

    private static String told(List<Order> list) {
        return list.size() + " " + list.stream().mapToLong(Order::cents).sum();
    }

    private static String toldPairs(List<Pair> list) {
        return list.size() + " " + list.stream().mapToLong(Pair::cents).sum();
    }

    private static String bestFive(Map<String, Long> sums) {
        StringBuilder rows = new StringBuilder();
        Comparator<Map.Entry<String, Long>> least = Map.Entry.comparingByValue();
        sums.entrySet().stream().sorted(least.thenComparing(Map.Entry.comparingByKey()).reversed()).limit(5)
                .forEach(row -> rows.append(row.getValue()).append(":").append(row.getKey()).append(";"));
        return rows.toString();
    }

    private static String ofOrders(String work, int workers, List<Order> list) {
        switch (work) {
            case "orders":
                return timed(() -> bestFive(stream(list, workers).filter(order -> order.cents() > 1000)
                        .collect(groupingBy(Order::customer, LinkedHashMap::new, summingLong(Order::cents)))), rows -> rows);
            case "all":
                return timed(() -> stream(list, workers).toList(), Service::told);
            default:
                return timed(() -> stream(list, workers).filter(order -> order.cents() > 1000).toList(), Service::told);
        }
    }

    private static String ofLog(String work, int workers, String log) {
        switch (work) {
            case "words":
                return timed(() -> lines(log, workers).flatMap(line -> Arrays.stream(line.split(" ", -1)))
                        .collect(groupingBy(String::length, LinkedHashMap::new, counting())),
                    counts -> counts.size() + " " + counts.entrySet().stream().mapToLong(entry -> entry.getKey() * entry.getValue()).sum());
            case "first-error":
                return timed(() -> lines(log, workers).filter(line -> line.startsWith("ERROR")).findFirst().orElse(""), line -> line);
            default:
                return timed(() -> lines(log, workers).filter(line -> line.startsWith("ERROR")).collect(joining(" | ", "<", ">")),
                    text -> "" + text.length());
        }
    }

    private static String ofNumbers(String work, int workers, int count) {
        if (work.equals("squares")) {
            LongStream range = LongStream.range(0, count);
            LongStream stream = workers == 1 ? range : range.parallel();
            return timed(() -> stream.filter(x -> x % 2 == 0).map(x -> x * x).sum(), sum -> "" + sum);
        }
        LongStream list = LongStream.of(numbers(count));
        LongStream stream = workers == 1 ? list : list.parallel();
        return timed(() -> stream.takeWhile(x -> x < 3).toArray(), front -> "" + front.length);
    }

    private static String answer(String work, int workers, int count) {
        switch (work) {
            case "pairs":
                List<Pair> all = pairs(count);
                return timed(() -> stream(all, workers).toList(), Service::toldPairs);
            case "dear-pairs":
                List<Pair> some = pairs(count);
                return timed(() -> stream(some, workers).filter(pair -> pair.cents() > 1000).toList(), Service::toldPairs);
            case "words", "first-error", "errors":
                return ofLog(work, workers, log(count));
            case "squares", "front":
                return ofNumbers(work, workers, count);
            default:
                return ofOrders(work, workers, orders(count));
        }
    }

    public static void main(String[] args) {
        Scanner lines = new Scanner(System.in);
        while (lines.hasNext()) {
            String work = lines.next();
            int workers = lines.nextInt();
            int count = lines.nextInt();
            String answer = answer(work, workers, count);
            System.out.println(work + "-" + workers + "x" + count + " " + time + " " + answer);
        }
    }
}
