"""Directories that somebody else changes while they are loaded: something replaces the thing that
was found, right before each call of the program in turn, for good and for only that call.

Nothing outside the directory may come into the script, and no file, directory or link
may be one half what was there and the other half what has come.
"""
import itertools
import os
import shutil
import subprocess
import threading

SOURCE = os.path.join(os.path.dirname(os.path.abspath(__file__)), "swap.c")
# how long a FIFO is waited for before somebody opens its other end, in seconds
WAITED = 60


def library(work):
    """The library swap.c, compiled."""
    path = f"{work}/swap.so"
    words = [os.environ.get("CC", "cc"), "-O2", "-shared", "-fPIC", "-o", path, SOURCE, "-ldl"]
    subprocess.run(words, check=True)
    return path


def make(kit, work, coming):
    """A directory, what is to come in the place of something in it, and files outside."""
    top, outside = f"{work}/changed", f"{work}/kept out"
    for folder in (top, outside):
        shutil.rmtree(folder, ignore_errors=True)
        os.makedirs(f"{folder}/d/e")
    kit.put(f"{top}/d/f", b"of-file")
    kit.put(f"{top}/d/e/g", b"of-deeper")
    os.symlink("of-link", f"{top}/l")
    kit.put(f"{outside}/f", b"SECRET")
    kit.put(f"{outside}/d/f", b"SECRET")
    kit.put(f"{outside}/d/e/g", b"SECRET")
    os.symlink("SECRET", f"{outside}/l")
    coming(top, outside, f"{work}/coming")
    return top


def other_file(top, outside, path):
    with open(path, "wb") as file:
        file.write(b"of-other")
    os.chmod(path, 0o611)


def other_folder(top, outside, path):
    os.mkdir(path)
    os.chmod(path, 0o711)
    os.mkdir(f"{path}/of-other")


def link_to(where):
    return lambda top, outside, path: os.symlink(f"{outside}/{where}", path)


# The newcomers, and where they come.
KINDS = {
    "a link to a file": ("d/f", link_to("f")),
    "a file": ("d/f", other_file),
    "a link to a directory": ("d", link_to("d")),
    "a link deeper to a directory": ("d/e", link_to("d/e")),
    "a directory": ("d", other_folder),
    "a link": ("l", lambda top, outside, path: os.symlink("of-other", path)),
    "a file for a link": ("l", other_file),
    "a directory for a file": ("d/f", other_folder),
}


def is_of_one(kind, script):
    """Whether what the script has of a file or a directory is all of one thing."""
    if kind == "a file" and b"commit 1" in script:
        is_new = b"=0611 /d/f" in script
        return (b"of-other" in script) == is_new and (b"of-file" in script) != is_new
    if kind == "a directory" and b"commit 1" in script:
        is_new = b"mkdir 0711 /d\n" in script
        return (b"/d/of-other" in script) == is_new and (b"of-file" in script) != is_new
    return True


def loaded(program, top, environment):
    words, streams = [program, "load", top], {"capture_output": True, "timeout": WAITED}
    return subprocess.run(words, env=dict(os.environ, **environment), **streams)


def calls_of(program, top, environment, counts):
    """How many calls a load makes to which something can be done."""
    with open(counts, "wb"):
        pass
    loaded(program, top, {**environment, "SWAP_NUMBER": "0", "SWAP_COUNT": counts})
    return os.path.getsize(counts)


def swapped(kit, program, work, preload):
    for (kind, (place, coming)), back in itertools.product(KINDS.items(), (False, True)):
        environment = {"LD_PRELOAD": preload, "SWAP_COMING": f"{work}/coming"}
        if back:
            environment["SWAP_BACK"] = "1"
        top = make(kit, work, coming)
        environment["SWAP_PLACE"] = f"{top}/{place}"
        count = calls_of(program, top, environment, f"{work}/counts")
        kit.check(f"{kind}: a load makes calls", count > 20, count)
        for number in range(1, count + 1):
            remove(f"{work}/coming")
            top = make(kit, work, coming)
            ran = loaded(program, top, {**environment, "SWAP_NUMBER": str(number)})
            name = f"{kind} before call {number}{' alone' if back else ''}"
            kit.check(f"{name} brings in nothing", b"SECRET" not in ran.stdout, ran.stdout)
            kit.check(f"{name} is no half", is_of_one(kind, ran.stdout), ran.stdout)
            is_told = ran.returncode == 0 and not ran.stderr and b"commit 1\n" in ran.stdout
            is_told = is_told or ran.returncode == 1 and b"commit" not in ran.stdout
            kit.check(f"{name} is told", is_told, ran.stderr)
        remove(f"{work}/coming")


def remove(path):
    if os.path.isdir(path) and not os.path.islink(path):
        shutil.rmtree(path)
    elif os.path.lexists(path):
        os.unlink(path)


def fifo(kit, program, work, preload):
    """A FIFO that comes in the place of a file is waited for, and then refused; never in the place
    of a directory."""
    said = b"ft: cannot load '/d/f': it is a FIFO (--skip leaves it out)\n"
    for place, line in (("d/f", said + b"fault: Special /d/f\n"), ("d", None)):
        def coming(top, outside, path):
            os.mkfifo(path)

        top = make(kit, work, coming)
        environment = {"LD_PRELOAD": preload, "SWAP_COMING": f"{work}/coming"}
        environment["SWAP_PLACE"] = f"{top}/{place}"
        count = calls_of(program, top, environment, f"{work}/counts")
        told = set()
        for number in range(1, count + 1):
            remove(f"{work}/coming")
            top = make(kit, work, coming)
            told.add(fifo_before(program, top, place, {**environment, "SWAP_NUMBER": str(number)}))
        is_told = line is None or line in told
        kit.check(f"a FIFO in the place of {place}", is_told and None not in told, told)
        remove(f"{work}/coming")


def fifo_before(program, top, place, environment):
    """The output of a load that may wait for a FIFO; None if it waits at a directory."""
    run = subprocess.Popen([program, "load", top], env=dict(os.environ, **environment),
                           stdout=subprocess.DEVNULL, stderr=subprocess.PIPE)
    ended = threading.Event()

    def let_go():
        """Opens the other end once somebody waits for it."""
        while not ended.wait(0.01):
            try:
                os.close(os.open(f"{top}/{place}", os.O_WRONLY | os.O_NONBLOCK))
                met.append(place)
            except OSError:
                pass

    met = []
    other = threading.Thread(target=let_go)
    other.start()
    try:
        told = run.communicate(timeout=WAITED)[1]
    except subprocess.TimeoutExpired:
        run.kill()
        run.communicate()
        told = None
    ended.set()
    other.join()
    is_waiting = place == "d" and met
    return None if is_waiting else told


def all_of(kit, program, work):
    preload = library(work)
    swapped(kit, program, work, preload)
    fifo(kit, program, work, preload)
