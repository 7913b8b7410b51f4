import java.io.BufferedReader;
import java.io.InputStreamReader;
import java.security.KeyFactory;
import java.security.PublicKey;
import java.security.Signature;
import java.security.spec.X509EncodedKeySpec;
import java.util.HexFormat;

/* Reads lines `verify PUBLIC MESSAGE SIGNATURE`, of hexadecimal digits with '-' before them, and answers each
 * by valid or invalid. The key is a SubjectPublicKeyInfo. Ends with 3 where this Java has no HSS/LMS. */
public class OpenJdk {
    static byte[] bytes(String text) {
        return HexFormat.of().parseHex(text.substring(1));
    }

    static String verdict(byte[] key, byte[] message, byte[] signature) {
        try {
            PublicKey known = KeyFactory.getInstance("HSS/LMS").generatePublic(new X509EncodedKeySpec(key));
            Signature verifier = Signature.getInstance("HSS/LMS");
            verifier.initVerify(known);
            verifier.update(message);
            return verifier.verify(signature) ? "valid" : "invalid";
        } catch (Exception why) {
            return "invalid";
        }
    }

    public static void main(String[] arguments) throws Exception {
        try {
            Signature.getInstance("HSS/LMS");
        } catch (Exception why) {
            System.exit(3);
        }
        BufferedReader input = new BufferedReader(new InputStreamReader(System.in));
        for (String line = input.readLine(); line != null; line = input.readLine()) {
            String[] words = line.split(" ");
            System.out.println(verdict(bytes(words[1]), bytes(words[2]), bytes(words[3])));
        }
    }
}
