"""Modes, owners and times through load, play and save: what is kept, and the report of the rest.

Tests that need the superuser are left out for others.
"""
import ctypes
import os
import shutil
import stat
import time

DROP_CAPABILITY, CHOWN = 24, 0
SET_ID = stat.S_ISUID | stat.S_ISGID
OTHER = 1000
IS_ROOT = os.geteuid() == 0
# right after the Epoch, with nanoseconds, and beyond 32 bits
TIMES = [1, 1_234_567_890_123_456_789, 4_294_967_296_000_000_007]


def kept_of(top, mask=0o7777):
    """The mode and owners of each path, and of a file its time too."""
    held = {}
    for here, folders, names in os.walk(os.fsencode(top)):
        for path in [here, *[os.path.join(here, name) for name in names + folders]]:
            told = os.lstat(path)
            if stat.S_ISLNK(told.st_mode):
                continue
            when = told.st_mtime_ns if stat.S_ISREG(told.st_mode) else None
            mode = stat.S_IMODE(told.st_mode) & mask
            held[path[len(os.fsencode(top)):]] = (mode, told.st_uid, told.st_gid, when)
    return held


def make_modes(top):
    """Each kind of mode, directories that nobody may write or list, owners and times."""
    os.makedirs(f"{top}/shut/in it")
    os.makedirs(f"{top}/sticky")
    os.mkdir(f"{top}/group")
    modes = [0o755, 0o644, 0o600, 0o444, 0o000, 0o111, 0o777, 0o1644, 0o4755, 0o2755, 0o6711]
    for number, mode in enumerate(modes):
        path = f"{top}/shut/in it/f{number}"
        with open(path, "wb") as file:
            file.write(b"x" * number)
        if IS_ROOT:
            os.chown(path, [0, OTHER, 54321][number % 3], [0, 12345][number % 2])
        os.chmod(path, mode)
        os.utime(path, ns=(0, TIMES[number % len(TIMES)]))
    os.link(f"{top}/shut/in it/f0", f"{top}/again")
    os.symlink("shut", f"{top}/link")
    if IS_ROOT:
        os.chown(f"{top}/group", OTHER, OTHER)
    os.chmod(f"{top}/group", 0o2775)
    os.chmod(f"{top}/sticky", 0o1777)
    for path, mode in (("/shut/in it", 0o111 if IS_ROOT else 0o555), ("/shut", 0o555), ("", 0o711)):
        os.chmod(top + path, mode)


def unshut(top):
    for here, folders, _ in os.walk(top):
        for name in [*folders, "."]:
            if not os.path.islink(os.path.join(here, name)):
                os.chmod(os.path.join(here, name), 0o700)


def remove(top):
    if os.path.isdir(top):
        unshut(top)
        shutil.rmtree(top)


def replies_of(kit, program, top, *words):
    script = kit.Ran(program, ["load", top, *words])
    kit.check("load of modes", script.status == 0 and not script.err, script.err)
    replies = kit.Ran(program, ["play", "--strict"], script.out + b"tree\n")
    kit.check("its script is granted", replies.status == 0 and not replies.err, replies.err)
    return replies.out


def rounds(kit, program, work):
    """What a directory has comes back, whatever the umask; set-id bits if they are asked for."""
    top, out = f"{work}/modes", f"{work}/modes out"
    make_modes(top)
    with_set_id = replies_of(kit, program, top, "--set-id")
    for name, given, words, mask in [
        ("without --set-id", replies_of(kit, program, top), ["--set-id"], ~SET_ID),
        ("with it at load alone", with_set_id, [], ~SET_ID),
        ("with it", with_set_id, ["--set-id"], 0o7777),
    ]:
        saved = kit.Ran(program, ["save", out, *words], given)
        kit.check(f"save of modes {name}", saved.status == 0 and not saved.err, saved.err)
        kit.check(f"all is kept {name}", kept_of(out) == kept_of(top, mask))
        remove(out)
    for umask in (0o777, 0o700, 0o300, 0o200, 0o100, 0o077, 0):
        ran = kit.Ran(program, ["save", out, "--set-id"], with_set_id, lambda: os.umask(umask))
        is_kept = ran.status == 0 and kept_of(out) == kept_of(top)
        kit.check(f"all is kept under the umask {umask:o}", is_kept, ran.err)
        remove(out)
    return with_set_id


def by_others(kit, program, work, given):
    """What others than the superuser save they own, and it is silent; set-id bits are kept only
    if the owners are those of the tree."""
    folder = f"{work}/of others"
    os.mkdir(folder)
    os.chown(folder, OTHER, OTHER)
    out = f"{folder}/out"
    rows = kit.told(
        b"dir 1", b"dir 2", b"edge 1 d 2", b"edge 2 a 3", b"edge 2 b 4", b"file 3 1 x", b"file 4 0",
        b"attributes 2 0555 0 0", b"attributes 3 4755 %d %d" % (OTHER, OTHER),
        b"attributes 4 6755 0 0", b"time 3 5 7",
    )

    def as_other():
        os.setgroups([])
        os.setgid(OTHER)
        os.setuid(OTHER)

    for umask in (0o022, 0o777):
        def limits(mask=umask):
            as_other()
            os.umask(mask)

        ran = kit.Ran(program, ["save", out, "--set-id"], rows, limits)
        held = kept_of(out) if ran.status == 0 else {}
        wanted = {b"/d": (0o555, OTHER, OTHER, None)}
        wanted[b"/d/a"] = (0o4755, OTHER, OTHER, 5_000_000_007)
        is_so = all(held.get(path) == here for path, here in wanted.items())
        is_so = is_so and held[b"/d/b"][:3] == (0o755, OTHER, OTHER)
        kit.check("a save by others", ran.status == 0 and not ran.err and is_so, (ran.err, held))
        remove(out)
    # modes are given, and then something else is in its place
    ran = kit.Ran(program, ["save", out], given, as_other)
    kit.check("a large save by others", ran.status == 0 and not ran.err, ran.err)
    remove(out)


def refused_owners(kit, program, work, given):
    """Owners that the system lets nobody set are reported once, and all else is kept."""
    out = f"{work}/refused owners"

    def without_chown():
        if ctypes.CDLL(None).prctl(DROP_CAPABILITY, CHOWN, 0, 0, 0) != 0:
            os._exit(99)

    ran = kit.Ran(program, ["save", out, "--set-id"], given, without_chown)
    held = kept_of(f"{work}/modes")
    wanted = {}
    for path, (mode, owner, group, when) in held.items():
        is_own = (owner, group) == (0, 0)
        wanted[path] = (mode if is_own else mode & ~SET_ID, 0, 0, when)
    # (the further name of a file is no file more)
    lost = sum((here[1], here[2]) != (0, 0) for path, here in held.items() if path != b"/again")
    is_told = ran.status == 0 and ran.err == b"owners not kept: %d\n" % lost
    kit.check("owners that are refused are told", is_told, ran.err)
    kit.check("and all else is kept", kept_of(out) == wanted)
    remove(out)
    ran = kit.Ran(program, ["save", out, "--set-id", "--no-owners"], given)
    is_quiet = ran.status == 0 and not ran.err
    kit.check("--no-owners", is_quiet and kept_of(out) == wanted, ran.err)
    remove(out)
    # (for the system this owner says that the one that is there stays)
    row = b"attributes 2 4755 4294967295 0"
    nobody = kit.told(b"dir 1", b"edge 1 su 2", b"file 2 0", row)
    ran = kit.Ran(program, ["save", out, "--set-id"], nobody)
    is_told = ran.status == 0 and ran.err == b"owners not kept: 1\n"
    is_safe = stat.S_IMODE(os.stat(f"{out}/su").st_mode) == 0o755
    kit.check("no set-id bits where the owner is another", is_told and is_safe, ran.err)
    remove(out)


def times(kit, program, work):
    """A time that can't be kept is named, and none before the Epoch can; files without one get that
    of the save, all the same."""
    out = f"{work}/times"
    for seconds in (-(2 ** 63), -(2 ** 40), -1, 0, 2 ** 34, 2 ** 40, 2 ** 63 - 1):
        rows = kit.told(b"dir 1", b"edge 1 f 2", b"file 2 1 x", b"time 2 %d 999999999" % seconds)
        ran = kit.Ran(program, ["save", out], rows)
        when = os.stat(f"{out}/f").st_mtime_ns if ran.status == 0 else None
        is_kept = when == seconds * 10 ** 9 + 999_999_999 and not ran.err
        is_told = when is not None and ran.err == b"times not kept: 1\n"
        is_right = is_told if seconds < 0 else is_kept != is_told
        kit.check(f"the time {seconds}", is_right, (when, ran.err))
        remove(out)
    numbers = range(10, 1000)
    edges = [b"edge 1 f%d %d" % (number, number) for number in numbers]
    rows = kit.told(b"dir 1", *edges, *[b"file %d 1 x" % number for number in numbers])
    before = time.time_ns()
    ran = kit.Ran(program, ["save", out], rows)
    moments = {os.stat(f"{out}/{name}").st_mtime_ns for name in os.listdir(out)}
    is_one = ran.status == 0 and len(moments) == 1
    is_now = is_one and before - 2 * 10 ** 9 <= min(moments) <= time.time_ns()
    kit.check("one moment for all that have no time", is_now, (ran.err, sorted(moments)[:3]))
    remove(out)


def refused_rows(kit, program, work):
    """Rows that have no mode, no owner or no time are rows of no tree."""
    out = f"{work}/refused rows"
    wrong = [b"attributes 2 0644 0", b"attributes 2 8 0 0", b"attributes 2 10000 0 0"]
    wrong += [b"attributes 2 0644 - 0", b"attributes 2 0644 0 4294967296"]
    wrong += [b"attributes 2 0644 0 0 0", b"time 2 0", b"time 2 0 1000000000", b"time 2 0 -1"]
    wrong += [b"time 2 9223372036854775808 0"]
    for row in wrong:
        rows = kit.told(b"dir 1", b"edge 1 f 2", b"file 2 0", row)
        ran = kit.Ran(program, ["save", out], rows)
        is_refused = ran.faults(b"fault: NoTree") and kit.is_nothing(out)
        kit.check(f"save refuses {row}", is_refused, ran.err)


def removed(kit, program, work):
    """What was begun is removed, even if a directory in it had its mode already."""
    out = f"{work}/removed"
    late = kit.told(
        b"dir 1", b"dir 2", b"edge 1 d 2", b"edge 2 f 3", b"edge 1 l 4", b"file 3 1 x",
        b"link 4 %FF", b"attributes 1 0500 0 0", b"attributes 2 0 0 0",
    )
    ran = kit.Ran(program, ["save", out], late)
    is_removed = ran.faults(b"fault: BadName /l") and kit.is_nothing(out)
    kit.check("directories that nobody may write are removed", is_removed, ran.err)


def all_of(kit, program, work):
    given = rounds(kit, program, work)
    if IS_ROOT:
        os.chmod(work, 0o755)
        # (others may not get at the program in its place)
        by_others(kit, shutil.copy(program, f"{work}/ft_run"), work, given)
        refused_owners(kit, program, work, given)
    times(kit, program, work)
    refused_rows(kit, program, work)
    removed(kit, program, work)
    remove(f"{work}/modes")
