import java.io.BufferedReader;
import java.io.InputStreamReader;
import java.security.SecureRandom;
import java.util.HexFormat;
import org.bouncycastle.pqc.crypto.lms.HSSKeyGenerationParameters;
import org.bouncycastle.pqc.crypto.lms.HSSKeyPairGenerator;
import org.bouncycastle.pqc.crypto.lms.HSSPrivateKeyParameters;
import org.bouncycastle.pqc.crypto.lms.HSSPublicKeyParameters;
import org.bouncycastle.pqc.crypto.lms.HSSSigner;
import org.bouncycastle.pqc.crypto.lms.LMOtsParameters;
import org.bouncycastle.pqc.crypto.lms.LMSParameters;
import org.bouncycastle.pqc.crypto.lms.LMSigParameters;

/* Reads lines, and answers each by one line:
 *   verify PUBLIC MESSAGE SIGNATURE: valid or invalid
 *   sign LEVELS SEED IDENTIFIER MESSAGE COUNT: a key, and so many signatures of the message
 * Bytes are hexadecimal digits with '-' before them, and levels as in 10/8,5/4. */
public class BouncyCastle {
    /* Gives the bytes of a seed and an identifier, by their lengths. */
    static class Given extends SecureRandom {
        final byte[] seed, identifier;

        Given(byte[] seed, byte[] identifier) {
            this.seed = seed;
            this.identifier = identifier;
        }

        @Override
        public void nextBytes(byte[] bytes) {
            byte[] source = bytes.length == 16 ? identifier : seed;
            System.arraycopy(source, 0, bytes, 0, bytes.length);
        }
    }

    static byte[] bytes(String text) {
        return HexFormat.of().parseHex(text.substring(1));
    }

    static String verdict(byte[] key, byte[] message, byte[] signature) {
        try {
            HSSSigner verifier = new HSSSigner();
            verifier.init(false, HSSPublicKeyParameters.getInstance(key));
            return verifier.verifySignature(message, signature) ? "valid" : "invalid";
        } catch (Exception why) {
            return "invalid";
        }
    }

    static LMSParameters[] levels(String text) throws Exception {
        String[] words = text.split(",");
        LMSParameters[] found = new LMSParameters[words.length];
        for (int at = 0; at < found.length; at++) {
            String[] level = words[at].split("/");
            Object tree = LMSigParameters.class.getField("lms_sha256_n32_h" + level[0]).get(null);
            Object chains = LMOtsParameters.class.getField("sha256_n32_w" + level[1]).get(null);
            found[at] = new LMSParameters((LMSigParameters) tree, (LMOtsParameters) chains);
        }
        return found;
    }

    static String signed(String[] words) throws Exception {
        HSSKeyPairGenerator generator = new HSSKeyPairGenerator();
        generator.init(new HSSKeyGenerationParameters(levels(words[1]), new Given(bytes(words[2]), bytes(words[3]))));
        HSSPrivateKeyParameters key = (HSSPrivateKeyParameters) generator.generateKeyPair().getPrivate();
        HSSSigner signer = new HSSSigner();
        signer.init(true, key);
        StringBuilder answer = new StringBuilder(HexFormat.of().formatHex(key.getPublicKey().getEncoded()));
        for (int left = Integer.parseInt(words[5]); left > 0; left--)
            answer.append(' ').append(HexFormat.of().formatHex(signer.generateSignature(bytes(words[4]))));
        return answer.toString();
    }

    public static void main(String[] arguments) throws Exception {
        BufferedReader input = new BufferedReader(new InputStreamReader(System.in));
        for (String line = input.readLine(); line != null; line = input.readLine()) {
            String[] words = line.split(" ");
            System.out.println(words[0].equals("sign") ? signed(words) : verdict(bytes(words[1]), bytes(words[2]), bytes(words[3])));
        }
    }
}
