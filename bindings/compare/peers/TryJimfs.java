// TryJimfs.java: the files in memory of jimfs, from Java.

import com.google.common.jimfs.Configuration;
import com.google.common.jimfs.Jimfs;
import java.lang.reflect.Method;
import java.nio.file.FileSystem;
import java.nio.file.Files;
import java.nio.file.Path;
import java.nio.file.attribute.PosixFilePermissions;
import java.util.List;
import java.util.stream.Stream;

public class TryJimfs {
    static final String UNDOING =
            "(?i).*(abort|commit|rollback|savepoint|snapshot|transaction|undo).*";

    static void say(String question, String answer, String text) {
        System.out.println(question + ": " + answer + ": " + text);
    }

    /** Returns the public names of the file system and what makes it. */
    static List<String> names(FileSystem files) {
        Stream<Class<?>> classes =
                Stream.of(Jimfs.class, Configuration.Builder.class, files.getClass(),
                        files.provider().getClass());
        return classes.flatMap(each -> Stream.of(each.getMethods())).map(Method::getName).toList();
    }

    static String modeOf(Path file) throws Exception {
        return PosixFilePermissions.toString(Files.getPosixFilePermissions(file));
    }

    public static void main(String[] words) throws Exception {
        Configuration posix =
                Configuration.unix().toBuilder().setAttributeViews("basic", "posix").build();
        FileSystem files = Jimfs.newFileSystem(posix);
        List<String> names = names(files);
        List<String> found = names.stream().filter(name -> name.matches(UNDOING)).toList();
        System.out.println("version: jimfs, as it is installed");
        for (String question : List.of("nested", "together", "blocks")) {
            say(question, "no", found.isEmpty()
                    ? "none of its " + names.size() + " names begins or undoes" : "only " + found);
        }
        Path file = Files.writeString(files.getPath("/jimfs-file"), "read me");
        boolean isSeen = Files.exists(Path.of("/jimfs-file"));
        say("seen", isSeen ? "yes" : "no", "the system has no such file");
        say("killed", "no", "it is in the memory of the process, and gone with it");
        Files.setPosixFilePermissions(file, PosixFilePermissions.fromString("rwxr-x---"));
        Path link = Files.createSymbolicLink(files.getPath("/link"), file);
        boolean isLink = Files.readSymbolicLink(link).equals(file);
        boolean isKept = isLink && modeOf(file).equals("rwxr-x---");
        say("kept", isKept ? "yes" : "no", "rwxr-x--- is " + modeOf(file) + ", a link leads to "
                + Files.readSymbolicLink(link));
        say("mounts", "no", "nothing of it is in the system");
    }
}
