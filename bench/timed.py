"""What bench/requests and bench/submits have in common: the program of bench/benches, and the medians of its runs."""
import argparse
import atexit
import collections
import os
import shutil
import statistics
import subprocess
import sys
import tempfile

sys.path.insert(0, os.path.dirname(os.path.dirname(os.path.realpath(__file__))))
from tests.library import second_root


def arguments(doc):
    """The words of the command line, with the program that is measured, built unless one is named."""
    words = argparse.ArgumentParser(usage=doc.split("usage: ")[1], description=doc.split("\n\nusage")[0])
    words.add_argument("--runs", type=int, default=9)
    words.add_argument("--beside")
    words.add_argument("program", nargs="?")
    given = words.parse_args()
    if not given.program:
        folder = tempfile.mkdtemp()
        atexit.register(shutil.rmtree, folder, ignore_errors=True)
        second_root.make(f"{folder}/root", "benches")
        given.program = second_root.prove(f"{folder}/root", "benches")
    return given


def run(program, part, beside, count, **more):
    """The microseconds of a part's calls, those of the processor for the whole run, and what it wrote on standard
    error."""
    with tempfile.TemporaryFile("w+") as said:
        process = subprocess.Popen([program, part, str(beside), str(count)], stdout=subprocess.PIPE, stderr=said,
                                   text=True, env={**os.environ, **more})
        told = process.stdout.read()
        _, status, usage = os.wait4(process.pid, 0)
        process.returncode = status
        said.seek(0)
        words = said.read()
    if status or told.split()[0] != str(count):
        sys.exit(f"{program} {part} {beside} {count}: status {status}, {told!r} {words!r}")
    return int(told.split()[1]) / 1000, (usage.ru_utime + usage.ru_stime) * 1e6, words


def times(given, rows):
    """For each program and row a list of interleaved runs: the microseconds a call, and those of the processor."""
    load = os.getloadavg()[0]
    if load > os.cpu_count() / 4:
        print(f"bench: the machine is busy (load {load:.1f}): trust the processor's time alone", file=sys.stderr)
    found = collections.defaultdict(list)
    for _ in range(given.runs):
        for part, beside, count in rows:
            for program in filter(None, (given.program, given.beside)):
                _, start, _ = run(program, part, beside, 0)
                elapsed, processor, _ = run(program, part, beside, count)
                found[program, part, beside].append((elapsed / count, (processor - start) / count))
    return found


def cell(values):
    """The median, with the least and the greatest."""
    middle, least, most = (f"{it:,.3g}" if abs(it) < 1000 else f"{it:,.0f}"
                           for it in (statistics.median(values), min(values), max(values)))
    return f"{middle} ({least} to {most})"


def print_table(given, rows, columns):
    """Prints a table: a line for each row, with the cells that each column makes of its runs and of those beside."""
    found = times(given, rows)
    columns = {"µs": lambda row, runs: cell([elapsed for elapsed, _ in runs]),
               "CPU µs": lambda row, runs: cell([processor for _, processor in runs]), **columns}
    if given.beside:
        columns["CPU, to before"] = lambda row, runs: cell(
            [one / other for (_, one), (_, other) in zip(runs, found[(given.beside, *row[:2])])])
    print(f"| {' | '.join(['', *columns])} |\n|{'---|' * (len(columns) + 1)}")
    for row, name in rows.items():
        cells = [make(row, found[(given.program, *row[:2])]) for make in columns.values()]
        print(f"| {' | '.join([name, *cells])} |", flush=True)
