"""Calls as scripts spell them, and calls that are chosen at random."""
import collections

LARGEST_OFFSET = 2**63 - 1
MOST_BYTES = 1_048_576
MOST_FOLLOWED = 40

# The arguments of a call: a path that leads, mostly, to a file (E), to a directory (G), to a
# link (L), to any of the three (P), to nothing (M), or to any of these (Q); a link's target (T);
# a descriptor (F), a count (N), an offset or a length (I), data (D), how a file is opened (O),
# from where an offset counts (W), a mode (A), which may be left out (B), an owner or a group (U),
# and seconds (S) with nanoseconds (R). The number says how often the call is chosen.
VERBS = {
    "mkdir": ("BM", 12),
    "rmdir": ("G", 6),
    "open": ("OQ", 16),
    "close": ("F", 4),
    "read": ("FN", 6),
    "write": ("FD", 9),
    "pread": ("FIN", 4),
    "pwrite": ("FID", 5),
    "lseek": ("FWI", 7),
    "truncate": ("IE", 5),
    "ftruncate": ("FI", 4),
    "stat": ("P", 7),
    "fstat": ("F", 5),
    "lstat": ("P", 5),
    "link": ("EM", 8),
    "symlink": ("TM", 16),
    "readlink": ("L", 5),
    "unlink": ("E", 8),
    "rename": ("PQ", 16),
    "list": ("G", 4),
    "chmod": ("AP", 7),
    "fchmod": ("FA", 4),
    "chown": ("UUP", 6),
    "lchown": ("UUP", 4),
    "fchown": ("FUU", 4),
    "utime": ("SRP", 6),
    "lutime": ("SRP", 3),
    "futime": ("FSR", 4),
}
PATHS = "EGLPMQ"

# How often a circle is followed once more.
TIMES = [0, 1, MOST_FOLLOWED - 2, MOST_FOLLOWED - 1, MOST_FOLLOWED]

# The kinds of things that paths are known to lead to.
KINDS = {"E": "file", "G": "dir", "L": "link"}

NAMES = [b"a", b"b", b"c", b"a", b"b", b"c", b"%", b"\xc3\xa9 x"]

# More than a directory has without an index; many begin alike, and some are just too long to be
# in place.
MANY_NAMES = (
    [b"a", b"b", b"c"]
    + [b"name-%d" % number for number in range(16)]
    + [b"n" * length for length in (7, 8, 9, 15, 16, 17, 21, 22, 23, 24, 254)]
    + [b"n" * 21 + last for last in (b"a", b"b", b"aa", b"ab")]
)

ODD_PATHS = [
    b"",
    b"/",
    b"//",
    b".",
    b"..",
    b"/..",
    b"/./",
    b"/" + b"n" * 255,
    b"/" + b"n" * 256,
    b"/missing/" + b"n" * 256,
    b"/a/" + b"n" * 256 + b"/.",
    b"/" * 4095,
    b"/" * 4096,
    b"/." * 2000,
    b"/a/.." * 300 + b"/b",
    b"/../a" * 40,
    b"/a/b/../../a/./b/../c",
    b"/a" * 40,
    b"/a" * 41,
    b"/b" * 20 + b"/c" * 20,
]

# Targets of links that lead up, to the directory of the link, to many names, or nowhere.
ODD_TARGETS = [
    b"",
    b".",
    b".",
    b".",
    b"..",
    b"/",
    b"../a",
    b"./b/.",
    b"a/..",
    b"b/" * 19 + b"b",
    b"n" * 255,
    b"n" * 256,
    b"/" * 4095,
    b"/" * 4096,
]

SMALL_OFFSETS = [0, 0, 1, 2, 3, 7, 100, 4095, 4096, 4097, -1, -2, -100]
LIMITS = [
    MOST_BYTES - 1,
    MOST_BYTES,
    MOST_BYTES + 1,
    2**31,
    2**62,
    LARGEST_OFFSET - 1,
    LARGEST_OFFSET,
    LARGEST_OFFSET,
    LARGEST_OFFSET,
    -(2**62),
    -(2**63),
]
COUNTS = [0, 1, 2, 5, 100, 4096, 5000]
LARGE_COUNTS = [MOST_BYTES, 2**63 - 1, 2**63, 2**64 - 1]

MODES = ["0", "7", "755", "0755", "644", "00644", "0600", "111", "1777", "2775", "4755", "7777"]

# An owner or a group that stays, and the last number that one may have.
STAYS = "-"
LAST_OWNER = 2**32 - 2
OWNERS = [STAYS, STAYS, 0, 0, 1, 1000, 2**31, LAST_OWNER]

# Far from now, so that no clock gives them; the very first and the very last second are left out,
# of which Linux keeps no nanoseconds.
SECONDS = [0, 1, -1, 1_000_000_000, -1_000_000_000, 2**32, 2 - 2**63, 2**63 - 2]
NANOSECONDS = [0, 0, 1, 500_000_000, 999_999_999]
MOST_NANOSECONDS = 999_999_999
MORE_NANOSECONDS = [MOST_NANOSECONDS + 1, 2**32 - 1]

# A descriptor that no call has opened.
UNKNOWN = 10**15


class Call(collections.namedtuple("Call", "verb arguments")):
    """A call with its arguments, paths and data as bytes; one that is left out is None."""

    def words(self):
        given = [argument for argument in self.arguments if argument is not None]
        return " ".join([self.verb, *map(word, given)])

    def paths(self):
        kinds = VERBS[self.verb][0]
        return [one for kind, one in zip(kinds, self.arguments) if kind in PATHS]

    def descriptor(self):
        """The descriptor that the call is made on, or nothing."""
        return self.arguments[0] if VERBS[self.verb][0].startswith("F") else None

    def with_descriptor(self, descriptor):
        return Call(self.verb, (descriptor,) + self.arguments[1:])


def word(argument):
    return coded(argument) if isinstance(argument, bytes) else str(argument)


# How each byte is spelled in scripts and replies.
CODES = [
    chr(byte) if 32 < byte < 127 and byte != ord("%") else f"%{byte:02X}" for byte in range(256)
]


def coded(data):
    return "".join(map(CODES.__getitem__, data))


# The calls that look a last link up itself, and change nothing in its directory.
OF_LINKS = ["lstat", "readlink", "lchown", "lutime"]

# The kind of thing that each of these calls makes; a further name is of what the first path names.
MADE = {"mkdir": "dir", "open": "file", "symlink": "link", "link": None}


class Paths:
    """Paths without dots that were made: where each leads, as far as that is known.

    A circle is a link that leads to its own directory.
    """

    def __init__(self):
        self.kinds = {}
        self.made_circles = []

    def that_are(self, kind):
        return [path for path, known in self.kinds.items() if known == kind]

    def circles(self):
        return [path for path in self.made_circles if self.kinds.get(path) == "link"]

    def learn(self, call, reply):
        """Takes note of what a call has made, removed or not found."""
        paths = [plain(path) for path in call.paths()]
        if not paths or b"" in paths:
            return
        if not reply.startswith("ok"):
            if reply == "ENOENT" and len(paths) == 1 and not self.may_follow(call, paths[0]):
                self.kinds.pop(paths[0], None)
        elif call.verb in MADE:
            self.kinds[paths[-1]] = MADE[call.verb] or self.kinds.get(paths[0], "file")
            if call.arguments[0] == b".":
                self.made_circles.append(paths[-1])
        elif call.verb in ("rmdir", "unlink"):
            self.kinds.pop(paths[0], None)
        elif call.verb == "rename":
            self.move(*paths)

    def may_follow(self, call, path):
        """Whether a call may have followed a link that is there, and leads nowhere."""
        return self.kinds.get(path) == "link" and call.verb not in OF_LINKS

    def move(self, old, new):
        """Moves the things at or below the old path below the new one."""
        for path in list(self.kinds):
            if path == old or path.startswith(old + b"/"):
                self.kinds[new + path[len(old) :]] = self.kinds.pop(path)


def plain(path):
    """A path from the root without empty names, or nothing if it has dots or no name."""
    names = [name for name in path.split(b"/") if name]
    return b"" if {b".", b".."} & set(names) else b"".join(b"/" + name for name in names)


class Chooser:
    """Chooses calls: often on what is there, and now and then on what is odd."""

    def __init__(self, random, is_at_limits):
        self.random = random
        self.is_at_limits = is_at_limits
        self.names = random.choice([NAMES, MANY_NAMES])
        self.known = Paths()
        self.descriptors = []

    def call(self):
        weights = [weight for _, weight in VERBS.values()]
        verb = self.random.choices(list(VERBS), weights)[0]
        return Call(verb, tuple(self.argument(kind) for kind in VERBS[verb][0]))

    def learn(self, call, reply, stamp):
        """Takes note of a call that has a reply: of paths, and of descriptors."""
        self.known.learn(call, reply)
        if reply.startswith("ok"):
            if call.verb == "open":
                self.descriptors.append(stamp)
            if call.verb == "close" and self.random.random() < 0.8:
                self.descriptors = [one for one in self.descriptors if one != call.descriptor()]

    def argument(self, kind):
        if kind in PATHS:
            return self.path(kind)
        one = self.random.choice
        choices = {
            "F": self.descriptor,
            "N": lambda: one(COUNTS + (LARGE_COUNTS if self.is_at_limits else [])),
            "I": lambda: one(SMALL_OFFSETS + (2 * LIMITS if self.is_at_limits else [])),
            "D": self.data,
            "O": self.flags,
            "W": lambda: one(["set", "cur", "end"]),
            "T": self.target,
            "A": lambda: one(MODES),
            "B": lambda: one(MODES) if self.random.random() < 0.3 else None,
            "U": lambda: one(OWNERS),
            "S": lambda: one(SECONDS),
            "R": self.nanoseconds,
        }
        return choices[kind]()

    def descriptor(self):
        if not self.descriptors or self.random.random() < 0.05:
            return self.random.choice([0, 1, UNKNOWN])
        return self.random.choice(self.descriptors[-6:])

    def flags(self):
        behind = [("c", 0.7), ("x", 0.2), ("t", 0.25), ("a", 0.25)]
        flags = self.random.choice(["r", "w", "rw", "rw"]) + "".join(
            flag for flag, part in behind if self.random.random() < part
        )
        return f"{flags}={self.random.choice(MODES)}" if self.random.random() < 0.3 else flags

    def nanoseconds(self):
        is_too_many = self.random.random() < 0.1
        return self.random.choice(MORE_NANOSECONDS if is_too_many else NANOSECONDS)

    def data(self):
        byte = self.random.choice([b"a", b"z", b"\x00", b"%", b"\xff"])
        piece = (byte + b"bc")[: self.random.choice([0, 1, 2, 3])]
        return piece * self.random.choice([1, 1, 1, 1, 40, 1500])

    def path(self, kind):
        chance = self.random.random()
        if chance < 0.04:
            return self.random.choice(ODD_PATHS)
        path = self.base(kind if chance < 0.85 else self.random.choice("EGLM"))
        for change in [self.deeper, self.through, self.dotted, self.slashed, self.relative]:
            if self.random.random() < 0.06:
                path = change(path)
        return path

    def target(self):
        """What a link holds: a path, or some of its last names."""
        if self.random.random() < 0.25:
            return self.random.choice(ODD_TARGETS)
        path = self.base(self.random.choice("EGGLM"))
        if self.random.random() < 0.5:
            path = path.split(b"/", self.random.choice([1, 1, 2]))[-1]
        return self.slashed(path) if self.random.random() < 0.1 else path

    def base(self, kind):
        """A path of a kind, as far as that is known."""
        if kind in "PQ":
            kind = self.random.choice("EGL" if kind == "P" else "EGLM")
        if kind == "M":
            return self.deeper(self.random.choice([b""] + self.known.that_are("dir")))
        there = self.known.that_are(KINDS[kind])
        if kind != "L" and self.random.random() < 0.1:
            there = self.known.that_are("link")
        return self.random.choice(there or [b"/a", b"/b/c"])

    def deeper(self, path):
        return path + b"/" + self.random.choice(self.names)

    def through(self, path):
        """The last name of a path after a link, or after a circle, which is followed often."""
        link = self.random.choice(self.known.that_are("link") or [b""])
        circles = self.known.circles()
        if circles and self.random.random() < 0.5:
            circle = self.random.choice(circles)
            link = circle + circle[circle.rfind(b"/") :] * self.random.choice(TIMES)
        return link + path[path.rfind(b"/") :]

    def dotted(self, path):
        """With a name, or two, that lead back or nowhere, in the path or after it."""
        pieces = path.split(b"/")
        at = self.random.randrange(len(pieces) + 1)
        added = self.random.choice([b".", b"..", b"a/..", b"b/../.", b""])
        return b"/".join(pieces[:at] + [added] + pieces[at:])

    def slashed(self, path):
        return path + self.random.choice([b"/", b"//"])

    def relative(self, path):
        return path.lstrip(b"/")
