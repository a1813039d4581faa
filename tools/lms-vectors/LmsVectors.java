// Prints keys and signatures of LMS and HSS (RFC 8554) that Bouncy Castle makes, or checks a signature with it.
// It stands in Bouncy Castle's package, since the one-time signatures are not public there.
package org.bouncycastle.pqc.crypto.lms;

import java.nio.ByteBuffer;
import java.nio.charset.StandardCharsets;
import java.nio.file.Files;
import java.nio.file.Path;
import java.security.MessageDigest;
import java.security.SecureRandom;
import java.util.Arrays;
import org.bouncycastle.util.encoders.Hex;

public class LmsVectors {
    static final byte[] I = "0123456789abcdef".getBytes(StandardCharsets.US_ASCII);
    static final byte[] SEED = "thirty-two bytes make this seed.".getBytes(StandardCharsets.US_ASCII);
    static final byte[] MESSAGE = "a message of one line\n".getBytes(StandardCharsets.US_ASCII);
    static final LMSigParameters H5 = LMSigParameters.lms_sha256_n32_h5;

    static final LMOtsParameters[] ONE_TIME = {
        LMOtsParameters.sha256_n32_w1, LMOtsParameters.sha256_n32_w2,
        LMOtsParameters.sha256_n32_w4, LMOtsParameters.sha256_n32_w8,
    };
    static final int[] LEAVES = {5, 0, 31, 18};

    // Leaves of a key of two levels, before and after a change of the key below, and the last.
    static final int[] BOTH_LEAVES = {31, 32, 1023};

    // Gives out the seed where 32 bytes are asked for, and the identifier where 16 are.
    static class Fixed extends SecureRandom {
        @Override
        public void nextBytes(byte[] bytes) {
            System.arraycopy(bytes.length == SEED.length ? SEED : I, 0, bytes, 0, bytes.length);
        }
    }

    static byte[] digest(byte[]... parts) throws Exception {
        MessageDigest hash = MessageDigest.getInstance("SHA-256");
        for (byte[] part : parts) {
            hash.update(part);
        }
        return hash.digest();
    }

    static String told(byte[] bytes) throws Exception {
        return Hex.toHexString(digest(bytes)) + ", " + bytes.length + " bytes";
    }

    static void write(Path into, String name, byte[] bytes) throws Exception {
        if (into != null) {
            Files.write(into.resolve(name), bytes);
        }
    }

    static void print(int which, Path into) throws Exception {
        LMOtsParameters kind = ONE_TIME[which];
        int q = LEAVES[which];
        byte[] key = LM_OTS.lms_ots_generatePublicKey(kind, I, q, SEED);
        LMSPrivateKeyParameters secret = LMS.generateKeys(H5, kind, q, I, SEED);
        byte[] pub = secret.getPublicKey().getEncoded();
        LMSSignature signature = LMS.generateSign(secret, MESSAGE);
        byte[] encoded = signature.getEncoded();
        System.out.println("one-time type " + kind.getType() + ", height 5, leaf " + q);
        System.out.println("  one-time public key    " + Hex.toHexString(key));
        System.out.println("  one-time signature     " + Hex.toHexString(digest(signature.getOtsSignature().getEncoded())));
        System.out.println("  LMS public key         " + Hex.toHexString(pub));
        System.out.println("  LMS signature          " + told(encoded));
        write(into, "w" + kind.getW() + ".public", pub);
        write(into, "w" + kind.getW() + ".signature", encoded);
    }

    // What Bouncy Castle signs by a key of two levels that it draws in its own way.
    static void printItsOwn(LMOtsParameters kind, Path into) throws Exception {
        LMSParameters level = new LMSParameters(H5, kind);
        LMSParameters[] levels = {level, level};
        HSSPrivateKeyParameters secret = HSS.generateHSSKeyPair(new HSSKeyGenerationParameters(levels, new Fixed()));
        HSSPublicKeyParameters pub = secret.getPublicKey();
        System.out.println("one-time type " + kind.getType() + ", heights 5 and 5, drawn as Bouncy Castle does");
        System.out.println("  HSS public key         " + Hex.toHexString(pub.getEncoded()));
        for (int leaf = 0; leaf <= 32; leaf++) {
            byte[] encoded = HSS.generateSignature(secret, MESSAGE).getEncoded();
            if (leaf >= 31) {
                LMSPrivateKeyParameters below = secret.getKeys().get(1);
                System.out.println("  identifier of the key below " + Hex.toHexString(below.getI()));
                System.out.println("  seed of the key below       " + Hex.toHexString(below.getMasterSecret()));
                System.out.println("  HSS signature " + leaf + "       " + told(encoded));
                write(into, "own-w" + kind.getW() + "-" + leaf + ".signature", encoded);
            }
        }
        write(into, "own-w" + kind.getW() + ".public", pub.getEncoded());
    }

    // What a leaf of the top key draws under a number that no chain has (docs/FORMATS.md).
    static byte[] drawn(int top, int number) throws Exception {
        return digest(I, ByteBuffer.allocate(7).putInt(top).putShort((short) number).put((byte) 0xff).array(), SEED);
    }

    // What gittuf signs by a key of two levels, of signatures that Bouncy Castle makes by both keys.
    static void printDrawn(LMOtsParameters kind, Path into) throws Exception {
        byte[] pub = new HSSPublicKeyParameters(2, LMS.generateKeys(H5, kind, 0, I, SEED).getPublicKey()).getEncoded();
        System.out.println("one-time type " + kind.getType() + ", heights 5 and 5, drawn as gittuf does");
        System.out.println("  HSS public key         " + Hex.toHexString(pub));
        for (int leaf : BOTH_LEAVES) {
            int top = leaf / 32;
            LMSPrivateKeyParameters above = LMS.generateKeys(H5, kind, top, I, SEED);
            byte[] identifier = Arrays.copyOf(drawn(top, 0xfffc), 16);
            LMSPrivateKeyParameters below = LMS.generateKeys(H5, kind, leaf % 32, identifier, drawn(top, 0xfffb));
            LMSPublicKeyParameters signed = below.getPublicKey();
            LMSSignedPubKey link = new LMSSignedPubKey(LMS.generateSign(above, signed.toByteArray()), signed);
            HSSSignature signature = new HSSSignature(1, new LMSSignedPubKey[] {link}, LMS.generateSign(below, MESSAGE));
            byte[] encoded = signature.getEncoded();
            System.out.println("  HSS signature " + String.format("%-9d", leaf) + told(encoded) + ", good: " + good(pub, MESSAGE, encoded));
            write(into, "two-w" + kind.getW() + "-" + leaf + ".signature", encoded);
        }
        write(into, "two-w" + kind.getW() + ".public", pub);
    }

    static boolean good(byte[] pub, byte[] message, byte[] signature) throws Exception {
        if (pub.length == 56) {
            return LMS.verifySignature(LMSPublicKeyParameters.getInstance(pub), signature, message);
        }
        HSSPublicKeyParameters key = HSSPublicKeyParameters.getInstance(pub);
        return HSS.verifySignature(key, HSSSignature.getInstance(signature, key.getL()), message);
    }

    public static void main(String[] words) throws Exception {
        if (words[0].equals("make")) {
            Path into = words.length > 1 ? Path.of(words[1]) : null;
            for (int which = 0; which < ONE_TIME.length; which++) {
                print(which, into);
            }
            for (LMOtsParameters kind : ONE_TIME) {
                printItsOwn(kind, into);
                printDrawn(kind, into);
            }
        } else {
            byte[][] read = new byte[3][];
            for (int which = 0; which < 3; which++) {
                read[which] = Files.readAllBytes(Path.of(words[which + 1]));
            }
            System.out.println(good(read[0], read[1], read[2]));
        }
    }
}
