"""A program of the repository, as the scripts of `bench/` and `checks/` build, run and measure it.

A program is only run as its sources stand: where a source of its crate, or of a crate below it, is newer
than what was built, it is built again first.
"""
import os, re, shutil, subprocess, sys, time

home = os.path.dirname(os.path.dirname(os.path.abspath(__file__)))


def option(name, otherwise):
    """The number behind an option of the command line."""
    return int(sys.argv[sys.argv.index(name) + 1]) if name in sys.argv else otherwise


def crates_below(name):
    """The crate and all crates of the repository that it stands on."""
    stands_on = {}
    with open(os.path.join(home, "crates.txt")) as file:
        for line in file:
            crate, colon, below = line.partition("#")[0].partition(":")
            if colon:
                stands_on[crate.split()[0]] = below.split()
    found, waiting = set(), [name]
    while waiting:
        crate = waiting.pop()
        if crate in stands_on and crate not in found:
            found.add(crate)
            waiting += stands_on[crate]
    return found


def newest_source(name):
    """When the crate, or one below it, was changed last; a folder is newer where a file in it was removed."""
    newest = os.stat(os.path.join(home, "crates.txt")).st_mtime
    for crate in crates_below(name):
        top = os.path.join(home, "crates", crate)
        for folder, folders, files in os.walk(top):
            if folder == top:
                # Its own time changes with what is built in it.
                folders[:] = [each for each in folders if each != "out"]
            else:
                newest = max(newest, os.stat(folder).st_mtime)
            newest = max([newest, *(os.stat(os.path.join(folder, file)).st_mtime for file in files)])
    return newest


class Program:
    """A program of the repository, built as its sources stand. Once built it is run with these words, with
    which it must end with status 0."""

    def __init__(self, name, *words):
        crate = os.path.join(home, "crates", name)
        self.path = os.path.join(crate, "out", name)
        if not os.access(self.path, os.X_OK) or os.stat(self.path).st_mtime <= newest_source(name):
            began = time.time()
            print(f"{os.path.basename(sys.argv[0])}: proving and building {name}", file=sys.stderr, flush=True)
            subprocess.run(["rt", "run", "--", *words], cwd=crate, check=True, stdout=subprocess.DEVNULL)
            # What was edited while it was built is newer than it.
            os.utime(self.path, (began, began))

    def answer(self, *words, source=None):
        """What it prints for these words, where it ends with status 0."""
        return subprocess.run([self.path, *map(str, words)], stdin=source, check=True, capture_output=True).stdout

    def usage(self, *words, source=None):
        """What one run used, as `getrusage` tells it; its output goes nowhere."""
        child = subprocess.Popen([self.path, *map(str, words)], stdin=source, stdout=subprocess.DEVNULL)
        _, status, usage = os.wait4(child.pid, 0)
        child.returncode = os.waitstatus_to_exitcode(status)
        if child.returncode != 0:
            sys.exit(f"{' '.join(map(str, (self.path, *words)))} ended with {child.returncode}")
        return usage

    def instructions(self, *words, source=None):
        """The instructions of one run; None without valgrind."""
        if shutil.which("valgrind") is None:
            return None
        done = subprocess.run(["valgrind", "--tool=callgrind", "--callgrind-out-file=/dev/null", self.path, *map(str, words)],
                              stdin=source, stdout=subprocess.DEVNULL, stderr=subprocess.PIPE, text=True)
        found = re.search(r"Collected : (\d+)", done.stderr)
        return int(found.group(1)) if done.returncode == 0 and found else None


def processor_seconds(usage):
    """The processor seconds of a run, the system's with them."""
    return usage.ru_utime + usage.ru_stime


def ratio(small, big):
    """The second by the first, as it is printed."""
    return f"{big / small:.2f}" if small else "too short to tell"


def compare_sizes(name):
    """Runs the work of a program for 500 and for 2,000 files, and prints a line for each and the ratio of the two."""
    program, runs, own, counted = Program(name), option("--runs", 5), [], []
    for files in (500, 2000):
        best = min((program.usage("work", files) for _ in range(runs)), key=lambda usage: usage.ru_utime)
        own.append(best.ru_utime)
        counted.append(program.instructions("work", files))
        print(f"{files:>5} files  own {best.ru_utime:.3f} s  system {best.ru_stime:.3f} s  peak {best.ru_maxrss / 1024:.1f} MiB"
              + (f"  {counted[-1] / 1e6:.1f} million instructions" if counted[-1] else ""))
    print(f"ratio of 2,000 to 500: own {ratio(*own)}" + (f", instructions {ratio(*counted)}" if all(counted) else ""))
