// Records the calls on any queue in Java: the lines of a log to be judged, in one file for each thread, or in one pipe
// for all.
import static java.nio.file.StandardOpenOption.CREATE;
import static java.nio.file.StandardOpenOption.TRUNCATE_EXISTING;
import static java.nio.file.StandardOpenOption.WRITE;

import java.io.IOException;
import java.nio.ByteBuffer;
import java.nio.channels.FileChannel;
import java.nio.file.Files;
import java.nio.file.Path;

/** Records the calls of one thread, in a new file. */
class Recorder {
    static final long START = System.nanoTime();
    final FileChannel file;
    final boolean isPipe;
    final int thread;
    long at, began;

    Recorder(String path, int thread) throws IOException {
        file = FileChannel.open(Path.of(path), CREATE, TRUNCATE_EXISTING, WRITE);
        isPipe = !Files.isRegularFile(Path.of(path));
        this.thread = thread;
    }

    static long now() {
        return System.nanoTime() - START;
    }

    /** Before a call: its line, as one that hasn't returned. A program that is killed leaves that, but in no pipe. */
    void begin(String what, Object... words) throws IOException {
        if (!isPipe) write("\"begin\":" + now() + "," + String.format(what, words));
        began = now();
    }

    /** After the call: its line again, over the other. */
    void end(String what, Object... words) throws IOException {
        long end = now();
        at += write("\"begin\":" + began + ",\"end\":" + end + "," + String.format(what, words));
    }

    /** Writes 128 bytes, within a page of memory: a kill cuts no line, but for longer ones. */
    int write(String line) throws IOException {
        String bytes = String.format("%-127s\n", "{\"thread\":" + thread + "," + line + "}");
        ByteBuffer all = ByteBuffer.wrap(bytes.getBytes());
        return isPipe ? file.write(all) : file.write(all, at);
    }
}
