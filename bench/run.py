#!/usr/bin/env python3
"""Measures the program on large layers, beside Python's JSON reader.

Python 3.11, standard library. For each number of entries it writes a layer with
generate.py into a temporary folder, runs each command several times, each run a
fresh process, and prints a Markdown table: the least wall time of the runs and
the largest peak memory of one run.

    python3 bench/run.py --program ./ovl_layers

With --layers N above 1 it makes N layers of that many entries each (seeds 1 to
N) and gives them to the program as words after `show`, the topmost first.
"""
import argparse
import os
import platform
import shutil
import subprocess
import sys
import tempfile
import time
from collections.abc import Sequence
from dataclasses import dataclass

HERE = os.path.dirname(os.path.abspath(__file__))
GENERATE = os.path.join(os.path.dirname(HERE), "tests", "makers", "generate.py")
GNU_TIME = "/usr/bin/time"
READ_ONE = "import json,sys; json.load(sys.stdin)"
READ_ALL = "import json,sys; [json.load(open(f)) for f in sys.argv[1:]]"


def one_run(command: list[str], source: str, sink: str) -> tuple[float, int, int]:
    """(seconds, peak bytes, exit status) of one run in a process of its own.

    GNU time reports only the peak of its child. Without it the peak is that of
    os.wait4, which is never below this script's own (some 15 MB), since a child
    starts as a copy of it.
    """
    words, note = list(command), None
    if os.access(GNU_TIME, os.X_OK):
        fd, note = tempfile.mkstemp(prefix="peak-")
        os.close(fd)
        words = [GNU_TIME, "-q", "-f", "%M", "-o", note] + words
    begin = time.perf_counter()
    with open(source, "rb") as stdin, open(sink, "wb") as stdout:
        child = subprocess.Popen(words, stdin=stdin, stdout=stdout)
        _, status, usage = os.wait4(child.pid, 0)
    seconds = time.perf_counter() - begin
    child.returncode = os.waitstatus_to_exitcode(status)
    peak = usage.ru_maxrss
    if note:
        with open(note) as text:
            peak = int(text.read().split()[-1])
        os.unlink(note)
    return seconds, peak * 1024, child.returncode


def measure(command: list[str], source: str, repeats: int) -> tuple[float, int]:
    """(least seconds, largest peak) over the runs; a failed run ends the script."""
    runs = []
    for _ in range(repeats):
        seconds, peak, status = one_run(command, source, os.devnull)
        if status != 0:
            sys.exit("run.py: %s ended with status %d" % (command[0], status))
        runs.append((seconds, peak))
    return min(s for s, _ in runs), max(p for _, p in runs)


@dataclass(frozen=True)
class Used:
    """What a process took with its children: seconds of processor and of the clock, and one's peak in kilobytes."""

    user: float
    system: float
    wall: float
    peak: int

    @property
    def processor(self) -> float:
        """User and system together."""
        return self.user + self.system


def clear(out: Sequence[str]) -> None:
    """Takes away files and folders, as far as they are there."""
    for path in out:
        if os.path.isdir(path):
            shutil.rmtree(path)
        elif os.path.lexists(path):
            os.unlink(path)


def used(words: list[str], out: Sequence[str]) -> Used:
    """What a command took that says nothing. Takes away first what it made before."""
    clear(out)
    began = time.monotonic()
    process = os.posix_spawnp(words[0], words, os.environ, file_actions=[
        (os.POSIX_SPAWN_OPEN, 1, os.devnull, os.O_WRONLY, 0), (os.POSIX_SPAWN_OPEN, 2, os.devnull, os.O_WRONLY, 0),
    ])
    _, status, usage = os.wait4(process, 0)
    if status:
        raise SystemExit(f"{' '.join(words)}: status {os.waitstatus_to_exitcode(status)}")
    return Used(usage.ru_utime, usage.ru_stime, time.monotonic() - began, usage.ru_maxrss)


def last_line(path: str) -> list[bytes]:
    with open(path, "rb") as report:
        report.seek(max(0, os.path.getsize(path) - 100))
        return report.read().splitlines()[-1:] or [b""]


def machine() -> str:
    name = platform.machine()
    try:
        with open("/proc/cpuinfo") as text:
            for line in text:
                if line.startswith("model name"):
                    name = line.split(":", 1)[1].strip()
                    break
    except OSError:
        pass
    memory = ""
    try:
        memory = ", %.0f GiB" % (os.sysconf("SC_PAGE_SIZE") * os.sysconf("SC_PHYS_PAGES") / 2 ** 30)
    except (OSError, ValueError):
        pass
    return "%s, %d processors%s, %s %s, Python %s" % (
        name, os.cpu_count() or 0, memory, platform.system(), platform.release(),
        platform.python_version())


def row(cells: Sequence[str]) -> str:
    return "| " + " | ".join(cells) + " |"


def main() -> None:
    words = argparse.ArgumentParser(description="Measures the program on large layers.")
    words.add_argument("--program", required=True, help="path of the program")
    words.add_argument("--sizes", default="10000,100000,1000000", help="entries of a layer, with commas (default 10000,100000,1000000)")
    words.add_argument("--repeats", type=int, default=5, help="runs of each command (default 5)")
    words.add_argument("--layers", type=int, default=1, help="layers in a stack, 1 to 128 (default 1, given by standard input)")
    words.add_argument("--generate", default="", help="further words for generate.py, such as '--attributes 0.5'")
    given = words.parse_args()
    sizes = [int(n) for n in given.sizes.split(",")]
    if given.repeats < 1 or not 1 <= given.layers <= 128:
        words.error("repeats and layers must be at least 1, layers at most 128")
    program = os.path.abspath(given.program)
    more = given.generate.split()

    results = []
    with tempfile.TemporaryDirectory(prefix="ovl-bench-") as folder:
        for entries in sizes:
            files = []
            for n in range(given.layers):
                files.append(os.path.join(folder, "layer-%d.json" % n))
                subprocess.run([sys.executable, GENERATE, "--entries", str(entries), "--seed",
                                str(n + 1), "--out", files[-1]] + more, check=True)
            size = sum(os.path.getsize(f) for f in files)
            if given.layers == 1:
                source, ours = files[0], [program]
                python = [sys.executable, "-c", READ_ONE]
            else:
                source, ours = os.devnull, [program, "show"] + files
                python = [sys.executable, "-c", READ_ALL] + files
            # A first run, not counted, shows that the report is whole.
            report = os.path.join(folder, "report")
            _, _, status = one_run(ours, source, report)
            end = last_line(report)[0]
            whole = end == b"entries %d" % entries if given.layers == 1 and not more \
                else end.startswith(b"entries ")
            if status != 0 or not whole:
                sys.exit("run.py: %d entries: status %d, the report ends with %r" % (entries, status, end))
            os.unlink(report)
            results.append((entries, size, measure(ours, source, given.repeats), measure(python, source, given.repeats)))
            print("run.py: %d entries done" % entries, file=sys.stderr)
            for f in files:
                os.unlink(f)

    print("Machine: %s. Least time of %d runs; layers: %d.\n" % (machine(), given.repeats, given.layers))
    print(row(["Entries", "Input, bytes", "Program, s", "Python's reader, s", "Program / reader",
               "Program, peak bytes", "Reader, peak bytes", "Program's peak / input"]))
    print(row(["---:"] * 8))
    for entries, size, (s, m), (ps, pm) in results:
        print(row(["{:,}".format(entries), "{:,}".format(size), "%.3f" % s, "%.3f" % ps,
                   "%.2f" % (s / ps), "{:,}".format(m), "{:,}".format(pm), "%.1f" % (m / size)]))
    by = {r[0]: r for r in results}
    if 100_000 in by and 1_000_000 in by:
        (_, si, (s0, m0), (p0, _)), (_, li, (s1, m1), (p1, _)) = by[100_000], by[1_000_000]
        print("\nFrom 100,000 to 1,000,000 entries: input %.1f times, program's time %.1f times, "
              "its peak memory %.1f times, the reader's time %.1f times."
              % (li / si, s1 / s0, m1 / m0, p1 / p0))


if __name__ == "__main__":
    main()
