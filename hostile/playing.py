"""Runs of the program: what goes in, and what comes out."""
import collections
import resource
import signal
import subprocess
import tempfile

# The most seconds that a run may take.
MOST_SECONDS = 60

Run = collections.namedtuple("Run", "status text errors")


def run(words, script=b"", environment=None):
    """Runs a program with its words; raises TimeoutExpired if it does not end."""
    file = tempfile.TemporaryFile
    with file() as given, file() as text, file() as errors:
        given.write(script)
        given.seek(0)
        streams = {"stdin": given, "stdout": text, "stderr": errors}
        ended = subprocess.run(words, env=environment, timeout=MOST_SECONDS, **streams)
        return Run(ended.returncode, written(text), written(errors))


def short_files(most):
    """A `preexec_fn` by which files take at most so many bytes, and a write beyond that fails."""

    def limit():
        signal.signal(signal.SIGXFSZ, signal.SIG_IGN)
        resource.setrlimit(resource.RLIMIT_FSIZE, (most, most))

    return limit


def run_with_short_errors(words, script, most):
    """Runs a program whose standard error is a file that takes at most so many bytes."""
    with tempfile.TemporaryFile() as errors:
        streams = {"input": script, "stdout": subprocess.PIPE, "stderr": errors}
        limit = short_files(most)
        ended = subprocess.run(words, preexec_fn=limit, timeout=MOST_SECONDS, **streams)
        return Run(ended.returncode, ended.stdout, written(errors))


def written(file):
    file.seek(0)
    return file.read()


def fault_of(ran, wanted):
    """Why a run that must end well, with this text and nothing else, has not, or nothing."""
    if ran.status != 0 or ran.errors:
        return f"status {ran.status}, {ran.errors!r}"
    if ran.text != wanted:
        return f"expected {shown(wanted)}, got {shown(ran.text)}"
    return None


def fault_of_end(ran, wanted, name):
    """Why a run that must end with this text and this fault has not, or nothing. Sentences that
    explain the fault may come before it."""
    *sentences, fault = ran.errors.split(b"\n")[:-1] or [b""]
    told = all(line.startswith(b"ft: ") for line in sentences)
    if (ran.status, fault, told) != (1, f"fault: {name}".encode(), True):
        return f"expected fault {name}, got status {ran.status}, {ran.errors!r}"
    if ran.text != wanted:
        return f"expected {shown(wanted)}, got {shown(ran.text)}"
    return None


def shown(text):
    """The end of a text, as it is shown if something is wrong."""
    return repr(text) if len(text) < 200 else f"{len(text)} bytes that end in {text[-100:]!r}"
