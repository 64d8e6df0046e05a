// Verifies a token with the shared library, by JNA (libjna-java of Debian), and writes its payload. It needs Java 11 or later. KEYS and TOKEN
// are files:
//
//     java -cp /usr/share/java/jna.jar VerifyToken.java KEYS TOKEN
//
// LAKHDZEVA_LIBRARY names the library if the loader does not find it, such as PREFIX/lib/liblakhdzeva.so.3.
// A service keeps `keys`, which are judged once, and answers 401 to a BadToken, and 500 to a Fault. It checks the claims of the payload itself.
import com.sun.jna.Library;
import com.sun.jna.Native;
import java.io.IOException;
import java.nio.file.Files;
import java.nio.file.Path;
import java.util.Arrays;

public class VerifyToken {
    /** Functions of lakhdzeva.h. A size_t is a long here: the library is for 64 bits alone. */
    public interface Lakhdzeva extends Library {
        Lakhdzeva CALLS = Native.load(System.getenv().getOrDefault("LAKHDZEVA_LIBRARY", "liblakhdzeva.so.3"), Lakhdzeva.class);

        long lakhdzeva_judge_keys_room(long keysLength);

        int lakhdzeva_judge_keys(byte[] keys, long keysLength, byte[] uses, long room, long[] members);

        long lakhdzeva_verify_room(long objectLength);

        int lakhdzeva_verify(byte[] keys, long keysLength, byte[] object, long objectLength, int flags, byte[] payload, long room, long[] length);

        String lakhdzeva_name(int status);
    }

    /** The number and the name of a result, such as 17 NotOpened. */
    private static String text(int status) {
        return status + " " + Lakhdzeva.CALLS.lakhdzeva_name(status);
    }

    /** The token is at fault. */
    static class BadToken extends Exception {
        BadToken(int status) {
            super(text(status));
        }
    }

    /** The call, the machine or the keys are at fault. */
    static class Fault extends RuntimeException {
        Fault(String why) {
            super(why);
        }
    }

    private static final int RANDOM = 5, KEY = 9, NO_ALGORITHM = 13, NOT_OPENED = 17, MAY_VERIFY = 2;

    /** Keys, each of which may verify. */
    private final byte[] keys;

    VerifyToken(byte[] keys) {
        byte[] uses = new byte[(int) Lakhdzeva.CALLS.lakhdzeva_judge_keys_room(keys.length)];
        long[] members = {0};
        int status = Lakhdzeva.CALLS.lakhdzeva_judge_keys(keys, keys.length, uses, uses.length, members);
        if (status != 0) throw new Fault(text(status));
        for (int at = 0; at < members[0]; at++) {
            if ((uses[at] & MAY_VERIFY) == 0) throw new Fault("the key at position " + at + " may not verify signatures");
        }
        this.keys = keys;
    }

    /** The payload of the token, if one of the keys made a signature of it. */
    byte[] verify(byte[] token) throws BadToken {
        byte[] payload = new byte[(int) Lakhdzeva.CALLS.lakhdzeva_verify_room(token.length)];
        long[] length = {0};
        int status = Lakhdzeva.CALLS.lakhdzeva_verify(keys, keys.length, token, token.length, 0, payload, payload.length, length);
        if (status != 0 && status <= RANDOM || status == KEY || status == NO_ALGORITHM || status > NOT_OPENED) {
            throw new Fault(text(status));
        }
        if (status != 0) throw new BadToken(status);
        return Arrays.copyOf(payload, (int) length[0]);
    }

    public static void main(String[] words) {
        if (words.length != 2) {
            System.err.println("usage: VerifyToken KEYS TOKEN");
            System.exit(1);
        }
        // The file of the keys, while an error is about it.
        String where = words[0] + ": ";
        try {
            VerifyToken keys = new VerifyToken(Files.readAllBytes(Path.of(words[0])));
            where = "";
            System.out.write(keys.verify(Files.readAllBytes(Path.of(words[1]))));
            System.out.flush();
        } catch (IOException why) {
            System.err.println("verify-token: a file cannot be read: " + why.getMessage());
            System.exit(1);
        } catch (BadToken | Fault why) {
            System.err.println("verify-token: " + where + why.getMessage());
            System.exit(1);
        }
    }
}
