/** The same runs by parallel streams. */
class Runs {
    public static void main(String[] args) {
        Ranges.runCases(numbers -> numbers.map(x -> x * 3).filter(x -> 0 < x * 0x9e3779b97f4a7c1L).sum());
    }
}
