import static java.util.stream.Collectors.*;

import java.io.IOException;
import java.io.InputStream;
import java.nio.charset.StandardCharsets;
import java.nio.file.Files;
import java.nio.file.Path;
import java.util.ArrayList;
import java.util.LinkedHashMap;
import java.util.List;
import java.util.Map;
import java.util.concurrent.ForkJoinPool;

/** The ten customers who spent most by orders above ten euros: of a CSV text, as JSON. Ours reads a SQLite table too, for which Java has no driver. */
public class Orders {
    static final String USAGE = "Usage: orders [FILE] [--workers N] [--help]";

    static String file;

    static int workers = 4;

    record Order(String customer, long cents) {
    }

    static void read(String[] words) {
        for (int at = 0; at < words.length; at++) {
            if (words[at].equals("--help")) {
                System.out.println(USAGE);
                System.exit(0);
            } else if (words[at].equals("--workers")) {
                workers = Integer.parseInt(words[++at]);
            } else if (words[at].startsWith("-") || file != null) {
                throw new IllegalArgumentException(words[at]);
            } else {
                file = words[at];
            }
        }
        if (workers < 1 || workers > 64) {
            throw new IllegalArgumentException("workers: " + workers);
        }
    }

    static List<Order> orders(String text) {
        List<String> lines = text.lines().collect(toList());
        List<String> header = List.of(lines.get(0).split(","));
        int customer = header.indexOf("customer");
        int cents = header.indexOf("cents");
        List<Order> orders = new ArrayList<>();
        for (int at = 1; at < lines.size(); at++) {
            try {
                String[] fields = lines.get(at).split(",");
                orders.add(new Order(fields[customer], Long.parseLong(fields[cents])));
            } catch (RuntimeException error) {
                throw new IllegalArgumentException("line " + (at + 1) + ": " + error.getMessage());
            }
        }
        return orders;
    }

    static String json(Map.Entry<String, Long> spent) {
        String customer = spent.getKey().replace("\\", "\\\\").replace("\"", "\\\"");
        return "{\"customer\":\"" + customer + "\",\"cents\":" + spent.getValue() + "}";
    }

    static String answer(List<Order> orders) {
        Map<String, Long> sums = orders.parallelStream()
            .filter(order -> order.cents() > 1000)
            .collect(toMap(Order::customer, Order::cents, Math::addExact, LinkedHashMap::new));
        return sums.entrySet().stream()
            .sorted(Map.Entry.<String, Long>comparingByValue().reversed())
            .limit(10)
            .map(Orders::json)
            .collect(joining(",", "[", "]"));
    }

    static void end(int status, String why) {
        System.err.println("orders: " + why);
        System.exit(status);
    }

    public static void main(String[] words) throws Exception {
        try {
            read(words);
        } catch (RuntimeException error) {
            end(2, error.getMessage() + "\n" + USAGE);
        }
        try (InputStream input = file == null ? System.in : Files.newInputStream(Path.of(file))) {
            String text = new String(input.readAllBytes(), StandardCharsets.UTF_8);
            List<Order> orders = orders(text);
            System.out.println(new ForkJoinPool(workers).submit(() -> answer(orders)).get());
        } catch (IOException error) {
            end(3, error.toString());
        } catch (Exception error) {
            end(1, error.getMessage());
        }
    }
}
