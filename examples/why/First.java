import java.util.stream.LongStream;

/** The first number below 5 of 2^62. */
class First {
    public static void main(String[] words) {
        System.out.println(LongStream.range(0, 1L << 62).parallel().filter(x -> x < 5).findFirst());
    }
}
