"""The same calls made by the operating system, in a root of its own."""
import collections
import errno
import fcntl
import os
import resource
import stat

import attributes
import calls
import links

# The root's number, and the numbers of the flags that open takes.
ROOT = 1
ACCESS = {"r": os.O_RDONLY, "w": os.O_WRONLY, "rw": os.O_RDWR}
FLAGS = {"c": os.O_CREAT, "x": os.O_EXCL, "t": os.O_TRUNC, "a": os.O_APPEND}
WHENCE = {"set": os.SEEK_SET, "cur": os.SEEK_CUR, "end": os.SEEK_END}

# Calls that the operating system gets in another form, so that both go on with the same tree.
CUT_WITHOUT_WRITING = "cut without writing"
OPENED_DIRECTORY = "directory is opened for reading"
PLACED_WRITE_APPENDS = "pwrite with append"
APPEND_PAST_LARGEST = "append from past the largest offset"
DIRECTORY_INFO = "links and size of a directory"
FOLLOWED = "a slash behind a link"
MADE_OTHERWISE = "what is made has other set-id bits or another group"
SET_ID_LOST = "chown of a file with set-id bits"
LINK_OWNER = "another owner or group of a link"
CUT_TO_ITS_SIZE = "truncate to the size that it has"
OTHERS_IN_STICKY = "open that may make a file of another in a sticky directory"

# Calls that it got in the same form, but that differ by a link, by its clock, or by a link's time.
LED_TO_SLASH = "a slash behind a target"
TIME_OF_CLOCK = "a time that was not set"
LINK_TIME = "the time of a link"

# The calls that follow a last link.
FOLLOWING = ["open", "truncate", "stat", "list", "chmod", "chown", "utime"]


def enter(folder):
    """Makes a folder the root; files there have at most the bytes that they have in a tree.

    Each file or directory that is made has the requested mode.
    """
    os.chroot(folder)
    os.chdir("/")
    os.umask(0)
    resource.setrlimit(resource.RLIMIT_FSIZE, (calls.MOST_BYTES, resource.RLIM_INFINITY))


class OpenFile:
    """A descriptor of the system, and a second one by which its file can always be read."""

    def __init__(self, number, witness, access, flags):
        self.number = number
        self.witness = witness
        self.access = access
        self.flags = flags


class File(collections.namedtuple("File", "row info")):
    """The row of a file or link in the report on the tree, and the system's report of it."""

    def is_regular(self):
        return stat.S_ISREG(self.info.st_mode)


class System:
    """The tree of the operating system, with the numbers that the program gives for its files.

    A time of a file that is not the one that was set last is of the system's clock.
    """

    def __init__(self):
        os.chmod("/", attributes.MODES["dir"])
        self.numbers = {os.stat("/").st_ino: ROOT}
        self.files = {}
        self.times = {}

    def ask(self, call, stamp):
        """Makes a call: the reply without its stamp, and what was asked otherwise."""
        self.stamp = stamp
        asked = links.asked_of(call)
        self.met = None if asked == call else FOLLOWED
        try:
            reply = getattr(self, asked.verb)(*asked.arguments)
        except OSError as error:
            reply = errno.errorcode[error.errno]
        return reply, self.met

    def kinds_of(self, call):
        """What the call's own paths lead to: dir, file (a link too), or the name of the error."""
        look = os.stat if call.verb in FOLLOWING else os.lstat
        return [kind_by(look, path) for path in call.paths()]

    def start_of(self, call):
        """The offset that a call counts from: its own, its descriptor's, or the file's end."""
        if call.verb in ("pread", "pwrite"):
            return call.arguments[1]
        if call.descriptor() not in self.files:
            return 0
        number = self.files[call.descriptor()].number
        whence = call.arguments[1] if call.verb == "lseek" else "cur"
        if whence == "cur":
            return os.lseek(number, 0, os.SEEK_CUR)
        return os.fstat(number).st_size if whence == "end" else 0

    def system_descriptor(self, descriptor):
        return self.files[descriptor].number if descriptor in self.files else -1

    def mkdir(self, mode, path):
        asked = attributes.mode_asked(mode, "dir")
        os.mkdir(path, asked)
        self.numbers[os.stat(path).st_ino] = self.stamp
        self.set_made(path, asked)
        return "ok"

    def set_made(self, target, mode):
        """Gives what is made the set-id bits that were asked for, and group 0."""
        info = os.stat(target)
        differing = (attributes.mode_of(info) ^ mode) & attributes.SET_ID
        if differing or info.st_gid != 0:
            self.met = MADE_OTHERWISE
            os.chown(target, 0, 0)
            os.chmod(target, attributes.mode_of(info) ^ differing)

    def rmdir(self, path):
        os.rmdir(path)
        return "ok"

    def open(self, words, path):
        flags, _, mode = words.partition("=")
        mode = attributes.mode_asked(mode or None, "file")
        access = flags.rstrip("cxta")
        if "t" in flags and access == "r":
            self.met = CUT_WITHOUT_WRITING
            flags = "r"
        is_new = kind_by(os.stat, path) == "ENOENT"
        asked = ACCESS[access] | sum(FLAGS[flag] for flag in flags[len(access) :])
        number = self.opened(path, asked, mode)
        info = os.fstat(number)
        if self.met == CUT_WITHOUT_WRITING or stat.S_ISDIR(info.st_mode):
            self.met = self.met or OPENED_DIRECTORY
            os.close(number)
            return "ok"
        if is_new:
            self.numbers[info.st_ino] = self.stamp
            self.set_made(number, mode)
        self.files[self.stamp] = OpenFile(number, os.open(path, os.O_RDONLY), access, flags)
        return f"ok {self.stamp}"

    def opened(self, path, asked, mode):
        try:
            return os.open(path, asked, mode)
        except PermissionError:
            self.met = OTHERS_IN_STICKY
            return os.open(path, asked & ~os.O_CREAT)
        except OSError:
            self.met = self.met or (LED_TO_SLASH if links.lead_to_slash(path) else None)
            raise

    def close(self, descriptor):
        os.close(self.system_descriptor(descriptor))
        os.close(self.files.pop(descriptor).witness)
        return "ok"

    def read(self, descriptor, count):
        return bytes_reply(os.read(self.system_descriptor(descriptor), count_asked(count)))

    def pread(self, descriptor, offset, count):
        number = self.system_descriptor(descriptor)
        return bytes_reply(os.pread(number, count_asked(count), offset))

    def write(self, descriptor, data):
        number = self.system_descriptor(descriptor)
        try:
            return f"ok {os.write(number, data)}"
        except OSError as error:
            if error.errno != errno.EINVAL or "a" not in self.files[descriptor].flags:
                raise
        self.met = APPEND_PAST_LARGEST
        return self.append(number, data)

    def append(self, number, data):
        """Appends from the offset 0, which has the same effect."""
        offset = os.lseek(number, 0, os.SEEK_CUR)
        os.lseek(number, 0, os.SEEK_SET)
        try:
            return f"ok {os.write(number, data)}"
        except OSError:
            os.lseek(number, offset, os.SEEK_SET)
            raise

    def pwrite(self, descriptor, offset, data):
        number = self.system_descriptor(descriptor)
        if number < 0 or "a" not in self.files[descriptor].flags:
            return f"ok {os.pwrite(number, data, offset)}"
        self.met = PLACED_WRITE_APPENDS
        flags = fcntl.fcntl(number, fcntl.F_GETFL)
        fcntl.fcntl(number, fcntl.F_SETFL, flags & ~os.O_APPEND)
        try:
            return f"ok {os.pwrite(number, data, offset)}"
        finally:
            fcntl.fcntl(number, fcntl.F_SETFL, flags)

    def lseek(self, descriptor, whence, offset):
        return f"ok {os.lseek(self.system_descriptor(descriptor), offset, WHENCE[whence])}"

    def truncate(self, length, path):
        size = size_of(path)
        os.truncate(path, length)
        info = os.stat(path)
        if size == length and self.has_time(info):
            self.met = CUT_TO_ITS_SIZE
            del self.times[info.st_ino]
        return "ok"

    def ftruncate(self, descriptor, length):
        os.ftruncate(self.system_descriptor(descriptor), length)
        return "ok"

    def stat(self, path):
        return self.info(os.stat(path))

    def lstat(self, path):
        return self.info(os.lstat(path))

    def fstat(self, descriptor):
        return self.info(os.fstat(self.system_descriptor(descriptor)))

    def info(self, info):
        number = self.numbers[info.st_ino]
        if stat.S_ISDIR(info.st_mode):
            self.met = DIRECTORY_INFO
            return f"ok dir {number} 1 0{attributes.tail('dir', info)}"
        kind = "link" if stat.S_ISLNK(info.st_mode) else "file"
        told = f"ok {kind} {number} {info.st_nlink} {info.st_size}{attributes.tail(kind, info)}"
        if self.has_time(info):
            return f"{told} time {attributes.time(info)}"
        self.met = TIME_OF_CLOCK
        return told

    def has_time(self, info):
        """Whether a file has the time that was set."""
        return self.times.get(info.st_ino) == info.st_mtime_ns

    def link(self, old, new):
        os.link(old, new)
        return "ok"

    def symlink(self, target, path):
        os.symlink(target, path)
        self.numbers[os.lstat(path).st_ino] = self.stamp
        return "ok"

    def readlink(self, path):
        return bytes_reply(os.readlink(path))

    def unlink(self, path):
        os.unlink(path)
        return "ok"

    def rename(self, old, new):
        os.rename(old, new)
        return "ok"

    def chmod(self, mode, path):
        os.chmod(path, int(mode, 8))
        return "ok"

    def fchmod(self, descriptor, mode):
        os.fchmod(self.system_descriptor(descriptor), int(mode, 8))
        return "ok"

    def chown(self, owner, group, path):
        return self.give(path, owner, group)

    def lchown(self, owner, group, path):
        if not os.path.islink(path):
            return self.give(path, owner, group)
        if {owner, group} - {calls.STAYS, 0}:
            self.met = LINK_OWNER
        return "ok"

    def fchown(self, descriptor, owner, group):
        number = self.system_descriptor(descriptor)
        # (os.stat takes -1 for no descriptor at all)
        os.fstat(number)
        return self.give(number, owner, group)

    def give(self, target, owner, group):
        """Sets the owner and the group, and the mode again if that has changed it."""
        mode = attributes.mode_of(os.stat(target))
        os.chown(target, *map(attributes.owner_asked, (owner, group)))
        if attributes.mode_of(os.stat(target)) != mode:
            self.met = SET_ID_LOST
            os.chmod(target, mode)
        return "ok"

    def utime(self, seconds, nanoseconds, path):
        attributes.set_time(seconds, nanoseconds, path)
        self.note_time(os.stat(path))
        return "ok"

    def lutime(self, seconds, nanoseconds, path):
        if os.path.islink(path):
            self.met = LINK_TIME
        attributes.set_time(seconds, nanoseconds, path, attributes.OF_LINK)
        self.note_time(os.lstat(path))
        return "ok"

    def futime(self, descriptor, seconds, nanoseconds):
        number = self.system_descriptor(descriptor)
        attributes.set_open_time(seconds, nanoseconds, number)
        self.note_time(os.fstat(number))
        return "ok"

    def note_time(self, info):
        """Takes note of the time that a file has: directories and links show none."""
        if stat.S_ISREG(info.st_mode):
            self.times[info.st_ino] = info.st_mtime_ns

    def list(self, path):
        names = [coded_name(entry) for entry in entries_of(path)]
        return " ".join(["ok", str(len(names)), *names])

    def tree(self):
        """The report on the tree, as a script has it."""
        directories, edges, files = self.everything()
        rows = [f"dir {number}" for number in sorted(directories)]
        rows += [f"edge {above} {calls.coded(name)} {own}" for above, name, own in sorted(edges)]
        rows += [files[number].row for number in sorted(files)]
        rows += attribute_rows("dir", directories)
        regular = {number: file.info for number, file in files.items() if file.is_regular()}
        rows += attribute_rows("file", regular)
        rows += self.time_rows(regular)
        rows += [self.descriptor_row(descriptor) for descriptor in sorted(self.files)]
        return [f"tree {len(rows)}"] + rows

    def everything(self):
        """The directories, the entries, and the files and links, all but the entries by number."""
        directories, edges, files = {}, [], {}
        left = [b"/"]
        while left:
            path = left.pop()
            info = os.stat(path)
            directory = self.numbers[info.st_ino]
            directories[directory] = info
            for entry in entries_of(path):
                number = self.numbers[entry.stat(follow_symlinks=False).st_ino]
                edges.append((directory, entry.name, number))
                if entry.is_dir(follow_symlinks=False):
                    left.append(entry.path)
                else:
                    files[number] = found(number, entry)
        for file in self.files.values():
            number = self.number_of(file)
            files[number] = found_open(number, file)
        return directories, edges, files

    def time_rows(self, files):
        """The rows of the times that were set."""
        return [
            f"time {number} {attributes.time(info)}"
            for number, info in sorted(files.items())
            if self.has_time(info)
        ]

    def number_of(self, file):
        return self.numbers[os.fstat(file.number).st_ino]

    def descriptor_row(self, descriptor):
        file = self.files[descriptor]
        offset = os.lseek(file.number, 0, os.SEEK_CUR)
        append = "a" if fcntl.fcntl(file.number, fcntl.F_GETFL) & os.O_APPEND else ""
        return f"fd {descriptor} {self.number_of(file)} {file.access}{append} {offset}"


def count_asked(count):
    """How many bytes the system is asked for: not more than a file may have and one more."""
    return min(count, calls.MOST_BYTES + 1)


def bytes_reply(data):
    return f"ok {len(data)} {calls.coded(data)}" if data else "ok 0"


def kind_of(info):
    return "dir" if stat.S_ISDIR(info.st_mode) else "file"


def size_of(path):
    """How many bytes a file has; nothing if there is none."""
    try:
        return os.stat(path).st_size
    except OSError:
        return None


def kind_by(look, path):
    try:
        return kind_of(look(path))
    except OSError as error:
        return errno.errorcode[error.errno]


def entries_of(path):
    with os.scandir(path) as entries:
        return sorted(entries, key=lambda entry: entry.name)


def coded_name(entry):
    return calls.coded(entry.name) + ("@" if entry.is_symlink() else "/" * entry.is_dir())


def found(number, entry):
    """The thing at an entry that is no directory."""
    if entry.is_symlink():
        row = f"link {number} {calls.coded(os.readlink(entry.path))}"
    else:
        row = file_row(number, contents_of(os.open(entry.path, os.O_RDONLY)))
    return File(row, entry.stat(follow_symlinks=False))


def found_open(number, file):
    row = file_row(number, contents_of(os.dup(file.witness)))
    return File(row, os.fstat(file.number))


def attribute_rows(kind, found):
    """The rows of attributes other than the default ones."""
    return [
        f"attributes {number} {attributes.told(info)}"
        for number, info in sorted(found.items())
        if not attributes.are_default(kind, info)
    ]


def contents_of(number):
    """All bytes of a file, by a descriptor that is closed then."""
    with open(number, "rb", buffering=0) as file:
        return os.pread(number, calls.MOST_BYTES + 1, 0)


def file_row(number, data):
    return f"file {number} {len(data)} {calls.coded(data)}" if data else f"file {number} 0"
