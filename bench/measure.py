"""What the benchmarks share: files of rows, runs of the program beside another, and a table of their times.

Each case is run by every program in turn, several times over; what counts are the median of the user seconds, which other
work on the machine disturbs least, and the greatest peak of memory. Beside the hub runs the program whose path stands in
the environment's variable PLAIN, where there is one: it must take the same words.
"""

import math
import multiprocessing
import os
import statistics
import subprocess
import sys

TOP = os.path.join(os.path.dirname(os.path.realpath(__file__)), "..")
HUB = os.path.join(TOP, "crates", "hub", "out", "hub")
RUNS = 5
AT = "active,2024-07-02T10:15:30.500Z"


def numbers_of(count):
    """The numbers below `count`: a step without a common factor visits each once, far from its neighbours."""
    step = max(1, round(count * 0.618))
    while math.gcd(step, count) != 1:
        step += 1
    for turn in range(count):
        yield (turn * step + 1) % count


def write_rows(path, header, row, count):
    """A file of rows in no order of their numbers."""
    with open(path, "w", encoding="utf-8") as file:
        file.write(header + "\n")
        file.writelines(row(number) + "\n" for number in numbers_of(count))


def write_manifest(folder, kinds, mode="bulk"):
    """The manifest of a set with files of these kinds."""
    os.makedirs(folder, exist_ok=True)
    with open(os.path.join(folder, "manifest.csv"), "w", encoding="utf-8") as file:
        file.write("propertyName,value\nmanifest.version,1.0\noneroster.version,1.1\n")
        file.writelines(f"file.{kind},{mode}\n" for kind in kinds)


def apart(task, *arguments):
    """Does a task in a process of its own: what this one takes in memory would count for the program that it starts."""
    child = multiprocessing.Process(target=task, args=arguments)
    child.start()
    child.join()
    if child.exitcode:
        sys.exit(1)


def programs():
    """The programs that are measured, by name."""
    plain = os.environ.get("PLAIN")
    return {"hub": HUB, "plain": plain} if plain else {"hub": HUB}


def run_once(program, folder, words, output, wanted=0):
    """Runs a program in a folder, which must end with the status that is wanted, and gives its user seconds and its peak of memory in MiB."""
    with open(output, "wb") as file:
        child = subprocess.Popen([program, *words], cwd=folder, stdout=file, stderr=subprocess.DEVNULL if wanted else None)
        _, status, used = os.wait4(child.pid, 0)
    child.returncode = os.waitstatus_to_exitcode(status)
    if child.returncode != wanted:
        sys.exit(f"{program} {' '.join(words)[:80]} ended with status {child.returncode}")
    return used.ru_utime, used.ru_maxrss / 1024


def print_head():
    print(f"{'case':<28} {'program':<7} {'user s':>7} {'least':>7} {'most':>7} {'growth':>7} {'peak MiB':>9} {'time x':>7} {'peak x':>7}")


class Case:
    """A case of a series: its label, the folder and words of a run, what tests the output, and the status that is wanted."""

    def __init__(self, label, folder, words, check=None, status=0):
        self.label = label
        self.folder = folder
        self.words = words
        self.check = check
        self.status = status

    def runs(self, times):
        """The seconds and peaks of each program, taken in turn."""
        found = {name: [] for name in programs()}
        output = os.path.join(self.folder, "output")
        for _ in range(times):
            for name, program in programs().items():
                found[name].append(run_once(program, self.folder, self.words, output, self.status))
                if self.check:
                    apart(self.check, output)
        return found


def print_case(case, before, times=RUNS):
    """Measures a case and prints a line a program, with the growth since the case before; gives the medians."""
    found = case.runs(times)
    medians = {name: statistics.median(seconds for seconds, _ in runs) for name, runs in found.items()}
    peaks = {name: max(peak for _, peak in runs) for name, runs in found.items()}
    for name, runs in found.items():
        growth = f"{medians[name] / max(before[name], 0.005):.1f}" if before else ""
        ratios = ["", ""]
        if name != "plain" and "plain" in found:
            ratios = [f"{medians[name] / max(medians['plain'], 0.005):.2f}", f"{peaks[name] / peaks['plain']:.2f}"]
        least, most = min(runs)[0], max(runs)[0]
        print(f"{case.label:<28} {name:<7} {medians[name]:>7.3f} {least:>7.3f} {most:>7.3f} {growth:>7} {peaks[name]:>9.1f} {ratios[0]:>7} {ratios[1]:>7}")
    return medians


def print_series(cases, times=RUNS):
    before = None
    for case in cases:
        before = print_case(case, before, times)


def build():
    """Builds the program where it is missing, which is not to be measured."""
    sys.stdout.reconfigure(line_buffering=True)
    subprocess.run([os.path.join(TOP, "hub")], stdin=subprocess.DEVNULL, stdout=subprocess.DEVNULL, check=False)


def begin():
    build()
    print_head()
