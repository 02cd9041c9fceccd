"""What the benchmarks share: the built program, its times, and its calls as the system's trace counts them."""
import os
import re
import shutil
import subprocess
import sys
import time
from collections import Counter
from pathlib import Path

ROOT = Path(__file__).resolve().parent.parent
sys.path.insert(0, str(ROOT / "examples"))
sys.dont_write_bytecode = True

READS = {"read", "pread64", "readv", "preadv"}
WRITES = {"write", "pwrite64", "writev", "pwritev"}
SYNCS = {"fsync", "fdatasync"}


def built_program():
    """The program, which the root script builds where that is due."""
    refused = subprocess.run([ROOT / "volman"], stdout=subprocess.DEVNULL)
    if refused.returncode != 20:
        sys.exit("bench: the program isn't built")
    return ROOT / "crates" / "volman" / "out" / "volman"


def milliseconds(command, deck=None):
    """The time of one run, whose standard input is the deck."""
    begin = time.perf_counter()
    subprocess.run(
        command,
        input=deck,
        stdout=subprocess.DEVNULL,
        stderr=subprocess.DEVNULL,
        check=True,
    )
    return (time.perf_counter() - begin) * 1000


def traced_calls(command, images, deck=None):
    """The reads, writes and syncs of images that one run makes, in order, if `strace` is installed.

    Each has the name of the system's call, the image, and of a write the offset and the number of bytes.
    """
    strace = shutil.which("strace")
    if strace is None:
        return None
    kinds = ",".join(sorted(READS | WRITES | SYNCS))
    traced = subprocess.run(
        [strace, "-f", "-y", "-e", f"trace={kinds}", *command],
        input=deck,
        stdout=subprocess.DEVNULL,
        stderr=subprocess.PIPE,
        text=True,
        check=True,
    )
    paths = {Path(image).resolve() for image in images}
    calls = []
    for line in traced.stderr.splitlines():
        call = re.match(r"(?:\[pid +\d+\] )?(\w+)\(\d+<([^>]*)>", line)
        if call and Path(call[2]) in paths:
            place = re.search(r", (\d+), (\d+)\) += \d+$", line)
            length, at = (int(place[1]), int(place[2])) if place else (0, 0)
            calls.append((call[1], Path(call[2]), at, length))
    return calls


def counted(calls):
    """How many of the calls are reads, writes and syncs."""
    counts = Counter(name for name, *_ in calls)
    return {
        kind: sum(counts[name] for name in names)
        for kind, names in (("reads", READS), ("writes", WRITES), ("syncs", SYNCS))
    }


def device_calls(command, image, deck=None):
    """How many reads, writes and syncs of the image one run makes, if `strace` is installed."""
    calls = traced_calls(command, [image], deck)
    return None if calls is None else counted(calls)


def renew(images, packs):
    """Writes the packs, durably, so that no sync of a run has to."""
    for image, pack in zip(images, packs):
        with open(image, "wb") as file:
            file.write(pack)
            file.flush()
            os.fsync(file.fileno())


def bare_milliseconds(images, calls):
    """The time in which the writes and syncs of a run are done by a plain loop."""
    files = {image: os.open(image, os.O_WRONLY) for image in images}
    longest = bytes(max(length for *_, length in calls))
    begin = time.perf_counter()
    for name, image, at, length in calls:
        if name in WRITES:
            os.pwrite(files[image], longest[:length], at)
        elif name in SYNCS:
            os.fdatasync(files[image])
    taken = (time.perf_counter() - begin) * 1000
    for file in files.values():
        os.close(file)
    return taken
