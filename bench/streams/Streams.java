/** The same by parallel streams. */
class Streams {
    public static void main(String[] args) {
        Ranges.runCases(numbers -> numbers.filter(x -> 0 < x * 0x9e3779b97f4a7c1L).map(x -> x * 3).sum());
    }
}
