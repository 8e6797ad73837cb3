#!/usr/bin/env python3
"""Runs the merge gate and prints what it took of processor time, crate by crate, as a table in Markdown.

It is started at the top of the repository. While the gate runs, it looks at the processes below it, twice a second: a
check is known by the name of its crate, one of tests by `--test`, and one of a must-fail edit by the folder it runs in.
So the gate does nothing that it doesn't do by itself. What a process took after the last look at it counts to the rest.
Linux only.
"""
import argparse
import os
import re
import resource
import subprocess
import sys
import time
from dataclasses import dataclass, field

TICK = os.sysconf("SC_CLK_TCK")
BEGIN, END = "<!-- made by tools/gate.py -->", "<!-- end -->"
PARTS = ("proof", "tests", "edits")


@dataclass
class Process:
    parent: int
    start: int
    seconds: float


@dataclass
class Run:
    """One command of the gate: of which crate and part, when it started, and what it and all below it took so far."""

    crate: str
    part: str
    start: int
    seconds: float = 0.0


@dataclass
class Gate:
    """What is known of a gate's runs, by process number and start."""

    runs: dict[tuple[int, int], Run] = field(default_factory=dict)

    def look(self, top: int) -> None:
        """Notes what the processes below `top` have taken."""
        processes = all_processes()
        kids: dict[int, list[int]] = {}
        for number, process in processes.items():
            kids.setdefault(process.parent, []).append(number)
        left = list(kids.get(top, ()))
        while left:
            number = left.pop()
            key = number, processes[number].start
            if key not in self.runs:
                found = described(number)
                if found is None:
                    left += kids.get(number, ())
                    continue
                self.runs[key] = Run(*found, processes[number].start)
            took = sum(processes[it].seconds for it in with_all_below(number, kids))
            self.runs[key].seconds = max(self.runs[key].seconds, took)

    def of(self, crate: str, part: str) -> list[float]:
        """The seconds of each run of a crate's part, in the order in which they started."""
        found = [it for it in self.runs.values() if (it.crate, it.part) == (crate, part)]
        return [it.seconds for it in sorted(found, key=lambda it: it.start)]


def all_processes() -> dict[int, Process]:
    found = {}
    for name in os.listdir("/proc"):
        if name.isdigit():
            try:
                with open(f"/proc/{name}/stat", encoding="ascii", errors="replace") as file:
                    fields = file.read().rpartition(")")[2].split()
            except OSError:
                continue
            # The times of the process itself, and of those of its children that have ended.
            seconds = sum(int(it) for it in fields[11:15]) / TICK
            found[int(name)] = Process(int(fields[1]), int(fields[19]), seconds)
    return found


def with_all_below(number: int, kids: dict[int, list[int]]) -> list[int]:
    found = [number]
    for it in found:
        found += kids.get(it, ())
    return found


def described(number: int) -> tuple[str, str] | None:
    """The crate and the part that a process works for, or None."""
    try:
        with open(f"/proc/{number}/cmdline", encoding="utf-8", errors="replace") as file:
            words = file.read().split("\0")[:-1]
        if words and os.path.basename(words[0]) == "rattle" and "--crate-name" in words[:-1]:
            crate = words[words.index("--crate-name") + 1]
            is_edit = os.path.basename(os.readlink(f"/proc/{number}/cwd")).startswith("rt-edit-")
            return crate, "edits" if is_edit else "tests" if "--test" in words else "proof"
    except OSError:
        return None
    runs = [re.fullmatch(r".*/rt-run-[^/]*/bin/(\w+)_tests", it) for it in words]
    return next(((it[1], "tests") for it in runs if it), None)


def crates() -> list[str]:
    """The crates of the repository, in the order of crates.txt."""
    with open("crates.txt", encoding="utf-8") as file:
        return [line.partition(":")[0].split()[0] for line in file if line.strip() and line[0] != "#"]


def edits_of(crate: str) -> list[str]:
    folder = f"crates/{crate}/must-fail"
    return sorted(it for it in os.listdir(folder) if it.endswith(".edit")) if os.path.isdir(folder) else []


def tests_of(crate: str) -> int:
    """How many functions of a crate are tests."""
    count = 0
    for folder, _, names in os.walk(f"crates/{crate}/src"):
        for name in names:
            with open(os.path.join(folder, name), encoding="utf-8") as file:
                count += sum(line.strip() == "#[test]" for line in file)
    return count


def minutes(seconds: float) -> str:
    return f"{seconds / 60:.1f}"


def row(*cells: object) -> str:
    return "| " + " | ".join(str(it) for it in cells) + " |"


def table(gate: Gate, total: float, wall: float) -> list[str]:
    """The table as lines, with what the gate took in all."""
    head = ("Crate", "Proof", "Tests", "Edits", "In all", "Number of tests", "Seconds a test", "Number of edits", "Seconds an edit")
    lines = [row(*head), "| --- " + "| ---: " * (len(head) - 1) + "|"]
    sums, tests, edits = dict.fromkeys(PARTS, 0.0), 0, 0
    for crate in crates():
        took = {part: sum(gate.of(crate, part)) for part in PARTS}
        lines.append(line_of(f"`{crate}`", took, tests_of(crate), len(edits_of(crate))))
        sums = {part: sums[part] + took[part] for part in PARTS}
        tests += tests_of(crate)
        edits += len(edits_of(crate))
    lines.append(line_of("all crates", sums, tests, edits))
    rest = total - sum(sums.values())
    lines += [row(name, "", "", "", minutes(it), "", "", "", "") for name, it in (("the rest", rest), ("the gate", total))]
    return [*lines, "", f"It ran for {minutes(wall)} minutes on {machine()}."]


def line_of(name: str, took: dict[str, float], tests: int, edits: int) -> str:
    each = [f"{took[part] / number:.0f}" if number else "" for part, number in (("tests", tests), ("edits", edits))]
    return row(name, *map(minutes, took.values()), minutes(sum(took.values())), tests, each[0], edits, each[1])


def dearest(gate: Gate, count: int) -> list[str]:
    """The edits that took the most, if each is known from the order in which they were tried."""
    found = []
    for crate in crates():
        names, took = edits_of(crate), gate.of(crate, "edits")
        # Behind two edits or more the crate itself is checked once.
        if len(took) == len(names) + (len(names) > 1):
            found += [(seconds, crate, name.removesuffix(".edit")) for seconds, name in zip(took, names)]
    found.sort(reverse=True)
    if not found:
        return []
    lines = ["", f"The edits that took the most ({len(found)} are known apart):", ""]
    lines += [row("Edit", "Seconds"), "| --- | ---: |"]
    return lines + [row(f"`{crate}/{name}`", f"{seconds:.0f}") for seconds, crate, name in found[:count]]


def machine() -> str:
    with open("/proc/cpuinfo", encoding="utf-8") as file:
        model = re.search(r"model name\s*:\s*(.*)", file.read())
    with open("/proc/loadavg", encoding="ascii") as file:
        load = file.read().split()[2]
    cores = len(os.sched_getaffinity(0))
    name = re.sub(r"\s+", " ", model[1]) if model else "unknown"
    return f"{cores} processors ({name}), at a load of {load} at its end"


def parts_of(path: str) -> tuple[str, str]:
    """The text of a file up to and with the first mark, and that from the second mark on."""
    with open(path, encoding="utf-8") as file:
        head, begin, rest = file.read().partition(BEGIN)
    end, tail = rest.partition(END)[1:]
    if not begin or not end:
        sys.exit(f"{path} has no '{BEGIN}' with '{END}' after it")
    return head + begin, end + tail


def write_into(path: str, lines: list[str]) -> None:
    """Puts the lines between the two marks of a file."""
    head, tail = parts_of(path)
    with open(path, "w", encoding="utf-8") as file:
        file.write("\n\n".join([head, "\n".join(lines), tail]))


def measured(words: list[str], interval: float) -> tuple[int, Gate, float, float]:
    """Runs the gate. Gives its status, what was seen, and its processor and wall time in seconds."""
    gate, began = Gate(), time.monotonic()
    # What the gate says goes to standard error.
    with subprocess.Popen(words, stdout=sys.stderr.fileno(), stdin=subprocess.DEVNULL) as ran:
        while ran.poll() is None:
            gate.look(ran.pid)
            time.sleep(interval)
    used = resource.getrusage(resource.RUSAGE_CHILDREN)
    return ran.returncode, gate, used.ru_utime + used.ru_stime, time.monotonic() - began


def main() -> None:
    about = argparse.ArgumentParser(description="Runs the merge gate and prints what it took, crate by crate.")
    about.add_argument("--into", metavar="FILE", help="put the table between the marks of this file too")
    about.add_argument("--interval", type=float, default=0.5, help="seconds between two looks (default 0.5)")
    about.add_argument("--dearest", type=int, default=10, help="how many edits to list (default 10)")
    about.add_argument("gate", nargs="*", default=[".ci/run"], help="the gate's words (default .ci/run)")
    given = about.parse_args()
    if not os.path.isfile("crates.txt"):
        sys.exit("gate.py is started at the top of the repository, where crates.txt is")
    if given.into:
        # (a missing mark is reported before the gate runs)
        parts_of(given.into)
    status, gate, total, wall = measured(given.gate, given.interval)
    lines = ["Minutes of processor time:", "", *table(gate, total, wall), *dearest(gate, given.dearest)]
    print("\n".join(lines))
    if status:
        sys.exit(f"the gate failed with status {status}, so no file is written")
    if given.into:
        write_into(given.into, lines)


if __name__ == "__main__":
    main()
