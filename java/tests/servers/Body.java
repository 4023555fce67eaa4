import java.nio.charset.StandardCharsets;

/** What the servers answer to a request with a number: a text of its own, of 12 bytes to 5 KB; of a few, of 2.4 MB. */
final class Body {
    private static final int FEW = 1000;

    private Body() {}

    static byte[] of(int number) {
        int count = number % FEW == 0 ? 200_000 : 1 + number % 411;
        return String.format("%011d\n", number).repeat(count).getBytes(StandardCharsets.US_ASCII);
    }
}
