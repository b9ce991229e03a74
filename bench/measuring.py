"""What a program takes that plays a script: instructions, time and memory."""
import re
import shutil
import subprocess

INSTRUCTIONS = ["--tool=callgrind", "--callgrind-out-file=/dev/null"]
HEAP = ["--tool=dhat", "--dhat-out-file=/dev/null"]


def has_valgrind():
    return shutil.which("valgrind") is not None


def instructions(words, script):
    """How many instructions it takes; they are the same in each run, which times are not."""
    return counted(INSTRUCTIONS, words, script, r"Collected : (\d+)")


def heap(words, script):
    """How many bytes it had from the allocator at most."""
    return counted(HEAP, words, script, r"At t-gmax: ([\d,]+) bytes")


def counted(tool, words, script, pattern):
    """The count of a tool of valgrind, as it reports at the end."""
    with open(script, "rb") as requests:
        streams = {"stdin": requests, "stdout": subprocess.DEVNULL, "stderr": subprocess.PIPE}
        ran = subprocess.run(["valgrind", *tool, *words], **streams)
    errors = ran.stderr.decode(errors="replace")
    found = re.search(pattern, errors)
    if ran.returncode != 0 or found is None:
        raise ValueError(f"{words[0]} under valgrind: status {ran.returncode}, {errors[-500:]}")
    return int(found[1].replace(",", ""))


def cost(measured, words, script, way):
    """Seconds of the processor, user and system, and the most bytes of memory."""
    ran = subprocess.run([measured, script, way, *words], stdout=subprocess.PIPE)
    if ran.returncode != 0:
        raise ValueError(f"{words[0]} failed on {script}")
    microseconds, kibibytes = map(int, ran.stdout.split())
    return microseconds / 1e6, kibibytes * 1024


def replies(words, script):
    """The lines that it writes."""
    with open(script, "rb") as requests:
        ran = subprocess.run(words, stdin=requests, stdout=subprocess.PIPE)
    if ran.returncode != 0:
        raise ValueError(f"{words[0]} ended with status {ran.returncode} on {script}")
    return ran.stdout.decode("ascii").splitlines()
