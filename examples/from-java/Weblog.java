import static java.util.stream.Collectors.*;

import java.io.ByteArrayOutputStream;
import java.io.FileDescriptor;
import java.io.FileInputStream;
import java.io.FileOutputStream;
import java.io.IOException;
import java.io.InputStream;
import java.io.UncheckedIOException;
import java.nio.ByteBuffer;
import java.nio.CharBuffer;
import java.nio.charset.CharsetDecoder;
import java.nio.charset.StandardCharsets;
import java.util.ArrayList;
import java.util.Comparator;
import java.util.Iterator;
import java.util.LinkedHashMap;
import java.util.List;
import java.util.Map;
import java.util.Optional;
import java.util.Set;
import java.util.Spliterator;
import java.util.Spliterators;
import java.util.concurrent.atomic.AtomicLong;
import java.util.stream.Collector;
import java.util.stream.StreamSupport;

/** Answers to the log of a web server of any size, in one pass: of a file or standard input. */
public class Weblog {
    static final String HELP = """
        Answers questions to the log of a web server

        Usage: weblog [OPTIONS] [FILE]

        Arguments:
          [FILE]  The log; standard input where none is named

        Options:
              --workers <N>  The workers, 1 to 64 [default: 4]
              --progress     Tells on standard error how far the run has come
          -h, --help         Print help""";

    static final int MOST_TOLD = 10;

    /** What a line tells. */
    sealed interface Entry permits Request, Fault {}

    record Request(int status, int hour, long bytes, String client, String path) implements Entry {}

    record Fault(long line, String what) implements Entry {}

    record Both<A, B>(A first, B second) {}

    record Options(String file, int workers, boolean progress) {}

    static class BadWords extends Exception {
        private static final long serialVersionUID = 1;

        BadWords(String message) {
            super(message);
        }
    }

    static class BadText extends IOException {
        private static final long serialVersionUID = 1;

        BadText(String message) {
            super(message);
        }
    }

    /** The lines of a stream in UTF-8, with their numbers. */
    static class Lines implements Iterator<Both<Long, String>> {
        private static final int LONGEST = 2 << 20;
        private final InputStream input;
        private final ByteArrayOutputStream line = new ByteArrayOutputStream();
        private final byte[] buffer = new byte[1 << 16];
        private int at = 0;
        private int end = 0;
        private long number = 0;
        private long place = 0;

        Lines(InputStream input) {
            this.input = input;
        }

        @Override
        public boolean hasNext() {
            try {
                if (at == end) {
                    at = 0;
                    end = Math.max(0, input.read(buffer));
                }
                return at < end;
            } catch (IOException e) {
                throw new UncheckedIOException(e);
            }
        }

        @Override
        public Both<Long, String> next() {
            try {
                line.reset();
                boolean isWhole = false;
                while (!isWhole && hasNext()) {
                    int from = at;
                    while (at < end && buffer[at] != '\n') {
                        at++;
                    }
                    line.write(buffer, from, at - from);
                    isWhole = at < end;
                    at += isWhole ? 1 : 0;
                    if (line.size() >= LONGEST) {
                        throw new BadText("a line that is too long begins at byte " + place);
                    }
                }
                String text = text(ByteBuffer.wrap(line.toByteArray()));
                place += line.size() + 1;
                return new Both<>(++number, text);
            } catch (IOException e) {
                throw new UncheckedIOException(e);
            }
        }

        private String text(ByteBuffer bytes) throws BadText {
            CharBuffer text = CharBuffer.allocate(bytes.remaining());
            CharsetDecoder decoder = StandardCharsets.UTF_8.newDecoder();
            if (decoder.decode(bytes, text, true).isError()) {
                throw new BadText("not UTF-8 at byte " + (place + bytes.position()));
            }
            return text.flip().toString();
        }
    }

    static String piece(String text, String separator, int at) {
        String[] pieces = text.split(separator, -1);
        return at < pieces.length ? pieces[at] : "";
    }

    static long number(String text) {
        try {
            return Long.parseLong(text);
        } catch (NumberFormatException e) {
            return -1;
        }
    }

    static Entry parse(long at, String line) {
        String head = piece(line, "\"", 0);
        String asked = piece(line, "\"", 1);
        String tail = piece(line, "\"", 2);
        String client = piece(line, " ", 0);
        String path = piece(asked, " ", 1);
        String sent = piece(tail, " ", 2);
        long hour = number(piece(piece(head, "\\[", 1), ":", 1));
        long status = number(piece(tail, " ", 1));
        long bytes = sent.equals("-") ? 0 : number(sent);
        if (client.isEmpty() || !piece(head, "\\[", 0).endsWith(" - - ")) {
            return new Fault(at, "no client");
        }
        if (hour < 0 || hour > 23 || !head.endsWith("] ")) {
            return new Fault(at, "no time");
        }
        if (path.isEmpty() || piece(asked, " ", 2).isEmpty()) {
            return new Fault(at, "no path");
        }
        if (status < 100 || status > 599) {
            return new Fault(at, "no status");
        }
        if (bytes < 0) {
            return new Fault(at, "no bytes");
        }
        return new Request((int) status, (int) hour, bytes, client, path);
    }

    /** The first items of a list, in bounded memory. */
    static <T> Collector<T, List<T>, List<T>> first(int most) {
        return Collector.of(ArrayList::new, (list, item) -> {
            if (list.size() < most) {
                list.add(item);
            }
        }, (left, right) -> {
            left.addAll(right.subList(0, Math.min(right.size(), most - left.size())));
            return left;
        });
    }

    static <T, R> Collector<Entry, ?, R> of(Class<T> kind, Collector<T, ?, R> downstream) {
        return filtering(kind::isInstance, mapping(kind::cast, downstream));
    }

    /** Tells of bad lines, writes the answers, and answers the status. */
    static int answer(InputStream log, boolean progress) throws IOException {
        var statuses = groupingBy(Request::status, LinkedHashMap::new, counting());
        var paths = groupingBy(Request::path, LinkedHashMap::new, counting());
        var clients = mapping(Request::client, toSet());
        var hours = groupingBy(Request::hour, LinkedHashMap::new, summingLong(Request::bytes));
        var counts = teeing(statuses, paths, Both::new);
        var sums = teeing(clients, hours, Both::new);
        var first = reducing((Request one, Request other) -> one);
        var failure = filtering((Request request) -> request.status() > 499, first);
        var requests = teeing(teeing(counts, sums, Both::new), failure, Both::new);
        var faults = teeing(counting(), Weblog.<Fault>first(MOST_TOLD), Both::new);
        AtomicLong told = new AtomicLong();
        long begun = System.nanoTime();
        var lines = Spliterators.spliteratorUnknownSize(new Lines(log), Spliterator.ORDERED);
        var found = StreamSupport.stream(lines, true)
            .peek(line -> {
                long count = told.incrementAndGet();
                if (progress && count % 1_000_000 == 0) {
                    double seconds = (System.nanoTime() - begun) / 1e9;
                    System.err.printf("%d lines, %.0f a second%n", count, count / seconds);
                }
            })
            .map(line -> parse(line.first(), line.second()))
            .collect(teeing(of(Request.class, requests), of(Fault.class, faults), Both::new));
        var bad = found.second();
        if (bad.first() > 0) {
            System.err.println("weblog: bad lines: " + bad.first());
        }
        for (Fault fault : bad.second()) {
            System.err.println("line " + fault.line() + ": " + fault.what());
        }
        var asked = found.first().first();
        write(asked.first(), asked.second(), found.first().second(), bad.first());
        return bad.first() > 0 ? 1 : 0;
    }

    static void write(
        Both<LinkedHashMap<Integer, Long>, LinkedHashMap<String, Long>> counts,
        Both<Set<String>, LinkedHashMap<Integer, Long>> sums,
        Optional<Request> failure,
        long bad
    ) throws IOException {
        StringBuilder text = new StringBuilder("requests by status: " + counts.first() + "\n");
        counts.second().entrySet().stream()
            .sorted(Map.Entry.comparingByValue(Comparator.reverseOrder()))
            .limit(3)
            .forEach(path -> text.append("path " + path.getKey() + ": " + path.getValue() + "\n"));
        String failed = failure.map(it -> it.status() + " " + it.path()).orElse("none");
        text.append("first failure: " + failed + "\n");
        text.append("clients: " + sums.first().size() + "\n");
        text.append("bytes by hour: " + sums.second() + "\n");
        text.append("bad lines: " + bad + "\n");
        print(text.toString());
    }

    static void print(String text) throws IOException {
        try (FileOutputStream output = new FileOutputStream(FileDescriptor.out)) {
            output.write(text.getBytes(StandardCharsets.UTF_8));
        } catch (IOException e) {
            throw new IOException("the answers can't be written: " + e.getMessage());
        }
    }

    static Options options(String[] words) throws BadWords {
        String file = null;
        long workers = 4;
        boolean progress = false;
        for (int at = 0; at < words.length; at++) {
            if (words[at].equals("--progress")) {
                progress = true;
            } else if (words[at].equals("--workers") && at + 1 < words.length) {
                workers = number(words[++at]);
            } else if (words[at].startsWith("--workers=")) {
                workers = number(words[at].substring("--workers=".length()));
            } else if (words[at].startsWith("-") || file != null) {
                throw new BadWords("unexpected argument '" + words[at] + "' found");
            } else {
                file = words[at];
            }
        }
        if (workers < 1 || workers > 64) {
            throw new BadWords("--workers has to be 1 to 64");
        }
        return new Options(file, (int) workers, progress);
    }

    static int run(String[] words) throws IOException, BadWords {
        if (List.of(words).contains("--help") || List.of(words).contains("-h")) {
            print(HELP + "\n");
            return 0;
        }
        Options options = options(words);
        String parallelism = "java.util.concurrent.ForkJoinPool.common.parallelism";
        System.setProperty(parallelism, "" + options.workers());
        String file = options.file();
        try (InputStream log = file == null ? System.in : new FileInputStream(file)) {
            return answer(log, options.progress());
        } catch (UncheckedIOException e) {
            throw e.getCause();
        }
    }

    public static void main(String[] words) {
        int status = 3;
        try {
            status = run(words);
        } catch (BadWords e) {
            System.err.println("error: " + e.getMessage());
            status = 2;
        } catch (BadText e) {
            System.err.println("weblog: " + e.getMessage());
            status = 1;
        } catch (IOException e) {
            System.err.println("weblog: " + e.getMessage());
        } catch (OutOfMemoryError e) {
            System.err.println("weblog: out of memory");
        }
        System.exit(status);
    }
}
