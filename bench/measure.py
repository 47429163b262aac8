"""What a run of a command takes: its instructions by valgrind's callgrind, and without valgrind what it writes and the most memory."""

import re
import shutil
import subprocess
import tempfile

TIME = "/usr/bin/time"


def missing():
    """What is needed to measure and is not here."""
    return [name for name in ("valgrind", TIME) if not shutil.which(name)]


def held(text):
    """A file with this text, at its beginning."""
    file = tempfile.TemporaryFile()
    file.write(text)
    file.seek(0)
    return file


def instructions(command, given=b""):
    """The instructions of one run, in millions."""
    with tempfile.NamedTemporaryFile() as counts:
        callgrind = ["valgrind", "--tool=callgrind", f"--callgrind-out-file={counts.name}", *command]
        ran = subprocess.run(callgrind, stdin=held(given), stdout=subprocess.DEVNULL, stderr=subprocess.PIPE, check=False)
        found = re.search(rb"Collected : (\d+)", ran.stderr)
        if not found:
            raise SystemExit(ran.stderr.decode(errors="replace"))
        return int(found[1]) / 1e6


def lines_and_memory(command, given=b""):
    """The lines that it writes, and the most memory in MB: that of a child of `time`, which has little memory of its own to pass on."""
    with tempfile.TemporaryFile() as taken, tempfile.NamedTemporaryFile("r") as used:
        timed = [TIME, "-f", "%M", "-o", used.name, *command]
        subprocess.run(timed, stdin=held(given), stdout=taken, stderr=subprocess.DEVNULL, check=False)
        taken.seek(0)
        return sum(1 for _ in taken), int(used.read().split()[-1]) * 1024 / 1e6
