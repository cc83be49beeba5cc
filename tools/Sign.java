// Makes LMS keys and signatures with Bouncy Castle: LMS type 5, LM-OTS type 4.
// Each line of standard input is a seed and messages, all in hexadecimal, - for an empty message. For each
// line it writes the public key that the seed gives, and the messages' signatures by its leaves 0, 1, ..
import java.security.MessageDigest;
import java.security.SecureRandom;
import java.util.Scanner;
import org.bouncycastle.pqc.crypto.lms.LMOtsParameters;
import org.bouncycastle.pqc.crypto.lms.LMSKeyGenerationParameters;
import org.bouncycastle.pqc.crypto.lms.LMSKeyPairGenerator;
import org.bouncycastle.pqc.crypto.lms.LMSParameters;
import org.bouncycastle.pqc.crypto.lms.LMSPrivateKeyParameters;
import org.bouncycastle.pqc.crypto.lms.LMSSigner;
import org.bouncycastle.pqc.crypto.lms.LMSigParameters;
import org.bouncycastle.util.encoders.Hex;

public class Sign {
    // Bytes that follow from the seed, so that the same line gives the same key again.
    static class Seeded extends SecureRandom {
        private byte[] state;

        Seeded(byte[] seed) {
            state = seed;
        }

        public void nextBytes(byte[] out) {
            try {
                for (int i = 0; i < out.length; i++) {
                    state = MessageDigest.getInstance("SHA-512").digest(state);
                    out[i] = state[0];
                }
            } catch (java.security.NoSuchAlgorithmException e) {
                throw new RuntimeException(e);
            }
        }
    }

    public static void main(String[] args) throws Exception {
        Scanner lines = new Scanner(System.in);
        while (lines.hasNextLine()) {
            String[] words = lines.nextLine().trim().split(" ");
            LMSKeyPairGenerator maker = new LMSKeyPairGenerator();
            maker.init(new LMSKeyGenerationParameters(
                new LMSParameters(LMSigParameters.lms_sha256_n32_h5, LMOtsParameters.sha256_n32_w8), new Seeded(Hex.decode(words[0]))));
            LMSPrivateKeyParameters key = (LMSPrivateKeyParameters) maker.generateKeyPair().getPrivate();
            StringBuilder out = new StringBuilder(Hex.toHexString(key.getPublicKey().getEncoded()));
            for (int i = 1; i < words.length; i++) {
                LMSSigner signer = new LMSSigner();
                signer.init(true, key);
                byte[] message = words[i].equals("-") ? new byte[0] : Hex.decode(words[i]);
                out.append(' ').append(Hex.toHexString(signer.generateSignature(message)));
            }
            System.out.println(out);
        }
    }
}
