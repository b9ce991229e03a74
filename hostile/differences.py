"""Differences: the program goes by POSIX.1-2017, or a choice that it leaves free; Linux does not.

Each rule describes its step: the call, the two answers, and what its paths lead to. A
difference that no rule describes is a fault.
"""
import collections

import calls
import system

# The outcomes of a walk besides ENOENT and ENOTDIR: a loop of links, and a target's text.
WALK = "ENOENT,ENOTDIR,ELOOP,ENAMETOOLONG"

LONGEST_PATH = 4095
LONGEST_NAME = 255

# A call as both have answered it, without the stamp. kinds are what its own paths lead to (dir,
# file, which a link is too, or the name of an error), start is the offset that it counts from, and
# met is in which other form the system got the call.
Step = collections.namedtuple("Step", "call stamp ours theirs kinds start met")

# The subject of the rule, its source, and whether a step is so.
Rule = collections.namedtuple("Rule", "name source applies")

UNDEFINED_ORDER = "2.3 Error Numbers: of several errors any may be answered"


def of(verbs, ours, theirs, holds=lambda step: True):
    """A rule's test: one of these calls, one of our answers, another of theirs, and what holds."""
    return lambda step: (
        step.call.verb in verbs.split()
        and step.ours in ours.split(",")
        and step.theirs in theirs.split(",")
        and step.ours != step.theirs
        and holds(step)
    )


def asked_otherwise(what):
    return lambda step: step.met == what and step.ours == step.theirs


def text_fault(step):
    """The error for the text of a path, or nothing."""
    for path in step.call.paths():
        if path == b"":
            return "ENOENT"
        if len(path) > LONGEST_PATH or any(len(name) > LONGEST_NAME for name in path.split(b"/")):
            return "ENAMETOOLONG"
    return None


def is_error(answer):
    return answer.startswith("E")


def names(path):
    return [name for name in path.split(b"/") if name]


def last_name(path):
    return names(path)[-1] if names(path) else b""


def has_slash(path):
    return path.endswith(b"/") and names(path) != []


def text_comes_first(step):
    return step.ours == text_fault(step) and is_error(step.theirs) and step.ours != step.theirs


def ends_in_dots(step):
    return any(last_name(path) in (b".", b"..") for path in step.call.paths())


def last_name_fault(step):
    """The error of rmdir and rename for the last names of their paths, or nothing."""
    if step.call.verb == "rmdir" and last_name(step.call.arguments[0]) == b"..":
        return "ENOTEMPTY"
    if ends_in_dots(step):
        return "EINVAL"
    return None if all(map(names, step.call.paths())) else "EBUSY"


def last_names_come_first(step):
    return step.ours == last_name_fault(step)


def makes_with_slash(step):
    """Whether a call opens a name with a slash after it and may make it, with the right error."""
    flags, path = step.call.arguments
    exists = "EEXIST" if "x" in flags else "EISDIR"
    wanted = exists if step.kinds == ["dir"] else step.kinds[0]
    is_slashed = has_slash(path) or step.met == system.LED_TO_SLASH
    return "c" in flags and is_slashed and step.ours == wanted


def was_followed(step):
    """Whether a slash follows the name of a link, so that only here it is followed."""
    return step.met == system.FOLLOWED


def old_comes_first(step):
    """Whether an answer is of the old path: a fault, or that a link leads to a dot or dot-dot."""
    return step.kinds[0] == step.ours or (step.ours == "EBUSY" and was_followed(step))


def opens_to_cut_without_writing(step):
    is_so = step.met == system.CUT_WITHOUT_WRITING and text_fault(step) is None
    return is_so and step.ours == "EINVAL"


def opens_directory(step):
    return step.met == system.OPENED_DIRECTORY and step.ours == "EISDIR" and step.kinds == ["dir"]


def is_past_largest(step):
    """Whether a call would go from where it starts to more than the largest offset."""
    last = step.call.arguments[-1]
    return step.start + (len(last) if isinstance(last, bytes) else last) > calls.LARGEST_OFFSET


def is_negative(step):
    return min(argument for argument in step.call.arguments if isinstance(argument, int)) < 0


def is_too_long(step):
    """Whether a truncate is to a length that no file may have."""
    return not 0 <= step.call.arguments[0] <= calls.MOST_BYTES


def has_too_many_nanoseconds(step):
    """Whether a utime is of as many nanoseconds as a second has, or more."""
    return step.call.arguments[1] > calls.MOST_NANOSECONDS


def is_directory_to_file(step):
    """Whether a rename is of a directory to a file's name, with a slash after it or without."""
    return step.kinds in (["dir", "file"], ["dir", "ENOTDIR"])


RULES = [
    Rule(
        "a text fault of a path comes before all look-up",
        UNDEFINED_ORDER,
        text_comes_first,
    ),
    Rule(
        "rmdir of the root, of a last . or .. comes before all look-up",
        UNDEFINED_ORDER,
        of("rmdir", "EBUSY,EINVAL,ENOTEMPTY", WALK, last_names_come_first),
    ),
    Rule(
        "rename of the root or of a last . or .. comes before all look-up",
        UNDEFINED_ORDER,
        of("rename", "EBUSY,EINVAL", WALK, last_names_come_first),
    ),
    Rule(
        "rename looks the old path up to its end before the new one",
        UNDEFINED_ORDER,
        of("rename", f"EBUSY,{WALK}", f"EBUSY,{WALK}", old_comes_first),
    ),
    Rule(
        "rename of a directory to a file below it: the kinds come first",
        UNDEFINED_ORDER,
        of("rename", "ENOTDIR", "EINVAL", is_directory_to_file),
    ),
    Rule(
        "rename of a file to a directory above it: the kinds come first",
        UNDEFINED_ORDER,
        of("rename", "EISDIR", "ENOTEMPTY", lambda step: step.kinds == ["file", "dir"]),
    ),
    Rule(
        "link of a directory: that comes before the look-up of the new path",
        UNDEFINED_ORDER,
        of("link", "EPERM", f"EEXIST,{WALK}", lambda step: step.kinds[0] == "dir"),
    ),
    Rule(
        "truncate to more than a file may have comes before all look-up",
        UNDEFINED_ORDER,
        of("truncate", "EFBIG", f"EISDIR,{WALK}", is_too_long),
    ),
    Rule(
        "utime with as many nanoseconds as a second has comes before all look-up",
        UNDEFINED_ORDER,
        of("utime lutime", "EINVAL", WALK, has_too_many_nanoseconds),
    ),
    Rule(
        "the descriptor comes before the offset or length",
        UNDEFINED_ORDER,
        of("pread pwrite ftruncate", "EBADF", "EINVAL", is_negative),
    ),
    Rule(
        "ftruncate of a descriptor that is not for writing",
        "ftruncate(): [EBADF] or [EINVAL]",
        of("ftruncate", "EBADF", "EINVAL"),
    ),
    Rule(
        "unlink of a directory",
        "unlink(): [EPERM], the file is a directory and that is prohibited",
        of("unlink", "EPERM", "EISDIR", lambda step: step.kinds[0] == "dir"),
    ),
    Rule(
        "lseek past the largest offset",
        "lseek(): [EOVERFLOW], the offset cannot be represented",
        of("lseek", "EOVERFLOW", "EINVAL", is_past_largest),
    ),
    Rule(
        "read that begins behind the end and would go past the largest offset",
        "read(): 0 is returned where the starting position is at or after the end",
        of("read pread", "ok 0", "EINVAL", is_past_largest),
    ),
    Rule(
        "write that begins behind the size limit and would go past the largest offset",
        "write(): [EFBIG], the starting position is at or past the offset maximum",
        of("write pwrite", "EFBIG", "EINVAL", is_past_largest),
    ),
    Rule(
        "rename of a last . or ..",
        "rename(): [EINVAL], a final component is dot or dot-dot",
        of("rename", "EINVAL", "EBUSY", ends_in_dots),
    ),
    Rule(
        "rename of a file to a directory's name with a slash behind it",
        "rename(): [EISDIR], new is a directory and old is not",
        of("rename", "EISDIR", "ENOTDIR", lambda step: step.kinds == ["file", "dir"]),
    ),
    Rule(
        "mkdir of a file's name with a slash behind it",
        "4.13 Pathname Resolution: such a path is not resolved to a file; [ENOTDIR]",
        of("mkdir", "ENOTDIR", "EEXIST", lambda step: step.kinds == ["ENOTDIR"]),
    ),
    Rule(
        "link and symlink to a file's name with a slash behind it",
        "link(), symlink(): [ENOTDIR]; 4.13 Pathname Resolution",
        of("link symlink", "ENOTDIR", "EEXIST", lambda step: step.kinds[-1] == "ENOTDIR"),
    ),
    Rule(
        "open that may make a file, of a name with a slash behind it",
        "open(): [ENOENT] or [ENOTDIR]; [EEXIST] where it has to make it",
        of("open", f"EEXIST,{WALK}", "EISDIR", makes_with_slash),
    ),
    Rule(
        "open that cuts and is not for writing (the system is asked without cutting)",
        "open(): what O_TRUNC does without O_RDWR or O_WRONLY is undefined",
        opens_to_cut_without_writing,
    ),
    Rule(
        "open of a directory for reading (what the system opens is closed again)",
        "open(): allowed; there are no descriptors of directories here",
        opens_directory,
    ),
    Rule(
        "stat of a directory tells 1 link and size 0 (these two are not compared)",
        "<sys/stat.h>: st_size is unspecified for them; their links are left out here",
        asked_otherwise(system.DIRECTORY_INFO),
    ),
    Rule(
        "pwrite with append writes at its offset (the system is asked without append)",
        "pwrite(): writes at the offset, whether or not O_APPEND is set",
        asked_otherwise(system.PLACED_WRITE_APPENDS),
    ),
    Rule(
        "rmdir of a link's name with a slash behind it that leads to a dot or dot-dot",
        "rmdir(): [EBUSY], the directory is in use",
        of("rmdir", "EBUSY", "EINVAL,ENOTEMPTY", was_followed),
    ),
    Rule(
        "a slash behind a link's name follows it (the system is asked of what it leads to)",
        "4.13 Pathname Resolution: a last link is not followed where no slash is behind it",
        asked_otherwise(system.FOLLOWED),
    ),
    Rule(
        "write with append goes to the end from any offset (the system is asked from 0)",
        "write(): with O_APPEND the offset is set to the end of the file prior to each write",
        asked_otherwise(system.APPEND_PAST_LARGEST),
    ),
    Rule(
        "utime of a directory, whose time is not kept",
        "utimensat(): [EINVAL], a time that the file system does not support",
        of("utime lutime", "EINVAL", "ok", lambda step: step.kinds == ["dir"]),
    ),
    Rule(
        "lutime of a link, whose time is not kept",
        "utimensat(): [EINVAL], a time that the file system does not support",
        of("lutime", "EINVAL", "ok", lambda step: step.met == system.LINK_TIME),
    ),
    Rule(
        "lchown of a link, whose owner and group are 0 (the system is not asked)",
        "lchown(): [EINVAL], an owner or group that the implementation does not support",
        of("lchown", "EINVAL", "ok", lambda step: step.met == system.LINK_OWNER),
    ),
    Rule(
        "chown leaves the set-id bits (the system is asked to set them again)",
        "chown(): implementation-defined where there are appropriate privileges",
        asked_otherwise(system.SET_ID_LOST),
    ),
    Rule(
        "what is made has just the set-id bits that are asked for, and group 0 (they are set then)",
        "mkdir(), open(): other bits are implementation-defined; the group may be the process's",
        asked_otherwise(system.MADE_OTHERWISE),
    ),
    Rule(
        "open that may make a file, of another's in a sticky directory (asked without making)",
        "4.5 File Access Permissions: a process with appropriate privileges may do so",
        asked_otherwise(system.OTHERS_IN_STICKY),
    ),
    Rule(
        "truncate to the size that a file has takes its time away",
        "truncate(): marks the last data modification for update",
        asked_otherwise(system.CUT_TO_ITS_SIZE),
    ),
    Rule(
        "stat tells no time of a clock (none is read here)",
        "4.9 File Times Update; a choice of this project",
        asked_otherwise(system.TIME_OF_CLOCK),
    ),
]


def rule_of(step):
    """The rule that describes a step, or nothing."""
    return next((rule for rule in RULES if rule.applies(step)), None)
