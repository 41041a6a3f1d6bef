"""What bench/serve/run measures, and how it prints it: tables that can be pasted into docs/speed.md. Runs are
interleaved: each run starts every service anew, beginning with a different one each time, and a ratio is of two
services in the same run. A figure is the median of the runs, with the least and the greatest in brackets."""
import statistics
import sys
import time

from services import Client, Service, Trouble

SIZES = {100: "100 B", 100_000: "100 KB", 5_000_000: "5 MB"}
LARGE = 6_000_000
PAUSES = 0, 100, 1_000    # microseconds until a runtime asks again
PARKED = 252, 3    # environments, and extensions of each: with the runtime 1,008 connections
# The aims: of plain C's rate by payload and environments, of Go's at 100 B, of plain C's short connections, KiB of a
# parked connection.
RATES = {(100, 1): 0.75, (100, 8): 0.85, (100, 64): 0.75}
OF_OTHERS, OF_GO, OF_SHORT, MOST_KIB = 1.0, 1.5, 0.5, 80


def number(it):
    """Three digits, or all before the point."""
    for least, form in ((100, ",.0f"), (10, ".1f"), (0.995, ".2f")):
        if abs(it) >= least:
            return format(it, form)
    return format(it, ".3f") if it else "0"


def median(values):
    return number(statistics.median(values))


def spread(values):
    return median(values) + (f" ({number(min(values))} to {number(max(values))})" if len(values) > 1 else "")


def ratio(it):
    return f"{it:.2f}"


def ratios(values):
    return (ratio(statistics.median(values))
            + (f" ({ratio(min(values))} to {ratio(max(values))})" if len(values) > 1 else ""))


def memory_free():
    with open("/proc/meminfo") as file:
        return next(int(line.split()[1]) * 1024 for line in file if line.startswith("MemAvailable"))


class Tables:
    """The services that are compared (ours first, then plain C), on which processors, and how often."""

    def __init__(self, kinds, load, runs, is_quick, placements):
        self.kinds, self.load, self.runs, self.is_quick, self.placements = kinds, load, runs, is_quick, placements
        self.plain = next(it for it in kinds if it.name == "plain C")
        self.go = next((it for it in kinds if it.name == "Go"), None)
        self.before = next((it for it in kinds if it.name == "before"), None)
        self.troubles = 0
        self.found = {}

    def few(self, count):
        return count // 10 if self.is_quick else count

    def interleaved(self, what, measure, runs=None):
        """Returns the samples of each service; a service that failed has none, and is reported at once."""
        samples = {kind: [] for kind in self.kinds}
        for run in range(runs or self.runs):
            at = run % len(self.kinds)
            for kind in self.kinds[at:] + self.kinds[:at]:
                if samples[kind] is None:
                    continue
                if sys.stderr.isatty():
                    print(f"\r\033[K{what}: run {run + 1}, {kind.name}", end="", file=sys.stderr, flush=True)
                try:
                    samples[kind].append(measure(kind))
                except Trouble as trouble:
                    self.troubles += 1
                    samples[kind] = None
                    print(f"bench: {what}: {trouble}", file=sys.stderr, flush=True)
                if sys.stderr.isatty():
                    print("\r\033[K", end="", file=sys.stderr, flush=True)
        return samples

    def head(self, *columns):
        print("\n| " + " | ".join(columns) + " |\n|" + "---|" * len(columns), flush=True)

    def row(self, *cells):
        print("| " + " | ".join(cells) + " |", flush=True)

    def bases(self):
        """The services that ours is held against."""
        return [it for it in (self.plain, self.go, self.before) if it]

    def against(self, samples, kind, base, name):
        """Returns the ratios run by run, if there are any."""
        if kind is base or not samples[kind] or not samples[base]:
            return None
        return [mine[name] / its[name] for mine, its in zip(samples[kind], samples[base]) if its[name] > 0]

    def beside(self, samples, kind, base, name, aim=None):
        """Returns the cell of these ratios: ours to each base, the others' only to plain C; with the aim, if any."""
        is_ours = kind is self.kinds[0]
        values = self.against(samples, kind, base, name) if is_ours or base is self.plain else None
        return (ratios(values) + (f", aim {aim}" if aim and is_ours else "")) if values else "-"

    def note(self, aim, values, where):
        """Keeps what an aim is held against."""
        self.found.setdefault(aim, [])
        if values:
            self.found[aim].append((statistics.median(values), where))

    def round_trip(self, kind, environments, size, invocations, processors):
        with Service(kind, environments, processors[0]) as service:
            with Client(self.load, service, "round", environments, size, invocations,
                        processors=processors[1]) as client:
                used, switched = service.processor(), service.switches()
                rate, half, most, throttles = map(float, client.go())
                if throttles > invocations / 100:
                    print(f"bench: {kind.name}: {throttles:,.0f} of {invocations:,} invocations were throttled, and "
                          f"made again", file=sys.stderr, flush=True)
                return {"rate": rate, "half": half, "most": most,
                        "processor": (service.processor() - used) / invocations * 1e6,
                        "switches": (service.switches() - switched) / invocations}

    def round_trips(self):
        self.head("processors", "environments", "payload", "service", "a second", "p50 µs", "p99 µs", "processor µs",
                  "switches", *(f"rate / {base.name}" for base in self.bases()), "processor / plain C")
        ours = self.kinds[0]
        for size, called in SIZES.items():
            for environments in (1, 8, 64):
                invocations = self.few({100: 40_000, 100_000: 4_000, 5_000_000: 128}[size])
                invocations = max(invocations // 2 if environments == 1 else invocations, environments)
                for name, processors in self.placements.items():
                    where = f"{called}, environments {environments}, processors {name}"
                    # What came and what went out of each invocation is kept, the client has buffers, and Go's collector
                    # takes twice.
                    wanted = 2 * size * (invocations * 1.05 + 2 * environments) * (2 if self.go else 1)
                    if wanted > memory_free():
                        print(f"bench: {where}: left out, since it needs {wanted / 1e9:.1f} GB of memory",
                              file=sys.stderr, flush=True)
                        continue
                    samples = self.interleaved(
                        where, lambda kind: self.round_trip(kind, environments, size, invocations, processors))
                    aim = RATES.get((size, environments), OF_OTHERS)
                    of_whom = f", environments {environments}" if (size, environments) in RATES else ""
                    self.note(f"at {called}{of_whom}: {aim} of plain C's rate",
                              self.against(samples, ours, self.plain, "rate"), where)
                    if size == 100:
                        self.note(f"at {called}: {OF_GO} of Go's rate",
                                  self.go and self.against(samples, ours, self.go, "rate"), where)
                    aims = {self.plain: aim, self.go: OF_GO if size == 100 else None}
                    for kind, its in samples.items():
                        self.row(name, str(environments), called, kind.name, *([
                            spread([it["rate"] for it in its]),
                            *(median([it[what] for it in its]) for what in ("half", "most", "processor", "switches")),
                            *(self.beside(samples, kind, base, "rate", aims.get(base)) for base in self.bases()),
                            self.beside(samples, kind, self.plain, "processor"),
                        ] if its else ["failed", *["-"] * (5 + len(self.bases()))]))

    def closed_trip(self, kind, environments, pause, invocations, processors):
        with Service(kind, environments, processors[0]) as service:
            with Client(self.load, service, "closed", environments, pause, invocations,
                        processors=processors[1]) as client:
                used, switched = service.processor(), service.switches()
                rate, half, most, nearly_all, throttles = map(float, client.go())
                return {"rate": rate, "half": half, "most": most, "nearly all": nearly_all, "throttles": throttles,
                        "processor": (service.processor() - used) / invocations * 1e6,
                        "switches": (service.switches() - switched) / invocations}

    def closed_trips(self):
        self.head("processors", "environments", "a runtime's pause, µs", "closed callers, 100 B", "a second", "p50 µs",
                  "p99 µs", "p99.9 µs", "throttles", "processor µs", "switches",
                  *(f"rate / {base.name}" for base in self.bases()))
        names = ("half", "most", "nearly all", "throttles", "processor", "switches")
        for pause in PAUSES:
            for environments in (1, 8, 64):
                count = self.few(max(2_000, min(20_000, 20_000 * environments // (1 + pause // 10))))
                for name, processors in self.placements.items():
                    samples = self.interleaved(
                        f"closed callers, environments {environments}, pause {pause}, processors {name}",
                        lambda kind: self.closed_trip(kind, environments, pause, count, processors))
                    for kind, its in samples.items():
                        self.row(name, str(environments), str(pause), kind.name, *([
                            spread([it["rate"] for it in its]),
                            *(median([it[what] for it in its]) for what in names),
                            *(self.beside(samples, kind, base, "rate") for base in self.bases()),
                        ] if its else ["failed", *["-"] * (len(names) + len(self.bases()))]))

    def small_ones(self, kind, processors):
        found = {}
        with Service(kind, 2, processors[0]) as service:
            for what, larges, smalls in (("alone", 0, self.few(20_000)), ("beside", self.few(40), 1_000_000)):
                with Client(self.load, service, "beside", LARGE, larges, smalls, processors=processors[1]) as client:
                    _count, half, most, rate = map(float, client.go())
                    found.update({what + " half": half, what + " most": most, "rate": rate})
        return found

    def beside_large(self):
        self.head("processors", "100 B, 2 environments", "alone: p50 µs", "p99 µs",
                  "while another connection sends 6 MB: p50 µs", "p99 µs",
                  "6 MB a second", *(f"that p99 / {base.name}" for base in self.bases()))
        for name, processors in self.placements.items():
            samples = self.interleaved(f"100 B beside 6 MB, processors {name}",
                                       lambda kind: self.small_ones(kind, processors))
            for kind, its in samples.items():
                self.row(name, kind.name, *([
                    *(spread([it[what] for it in its])
                      for what in ("alone half", "alone most", "beside half", "beside most")),
                    median([it["rate"] for it in its]),
                    *(self.beside(samples, kind, base, "beside most") for base in self.bases()),
                ] if its else ["failed", *["-"] * (4 + len(self.bases()))]))

    def short_ones(self, kind, callers, processors):
        count = self.few(20_000)
        with Service(kind, 1, processors[0]) as service:
            with Client(self.load, service, "short", max(count // 10, callers), callers,
                        processors=processors[1]) as client:
                client.go()
            with Client(self.load, service, "short", count, callers, processors=processors[1]) as client:
                memory, used = service.memory(), service.processor()
                (rate,) = map(float, client.go())
                used = service.processor() - used
                service.settle()
                return {"rate": rate, "processor": used / count * 1e6, "grown": service.memory() - memory}

    def short(self):
        self.head("processors", "callers", "short connections", "a second", "processor µs a connection",
                  f"KiB grown after {self.few(20_000):,}", *(f"rate / {base.name}" for base in self.bases()))
        for callers in (1, 8):
            for name, processors in self.placements.items():
                where = f"short connections, callers {callers}, processors {name}"
                samples = self.interleaved(where, lambda kind: self.short_ones(kind, callers, processors))
                self.note(f"{OF_SHORT} of plain C's short connections a second",
                          self.against(samples, self.kinds[0], self.plain, "rate"), where)
                for kind, its in samples.items():
                    self.row(name, str(callers), kind.name, *([
                        spread([it["rate"] for it in its]),
                        median([it["processor"] for it in its]),
                        f"{statistics.median(it['grown'] for it in its):,.0f}",
                        *(self.beside(samples, kind, base, "rate", OF_SHORT if base is self.plain else None)
                          for base in self.bases()),
                    ] if its else ["failed", *["-"] * (2 + len(self.bases()))]))

    def use(self, service, seconds):
        """The part of one processor that it uses, in percent."""
        used, begun = service.processor(), time.monotonic()
        time.sleep(seconds)
        return (service.processor() - used) / (time.monotonic() - begun) * 100

    def parked_ones(self, kind):
        environments, extensions = PARKED
        count = environments * (extensions + 1)
        with Service(kind, environments) as service:
            service.settle()
            none = self.use(service, 2 if self.is_quick else 10)
            before = service.memory(), service.descriptors(), service.threads()
            with Client(self.load, service, "park", environments, extensions) as client:
                client.go()
                service.settle()
                after = service.memory(), service.descriptors(), service.threads()
                grown = [now - then for now, then in zip(after, before)]
                full = self.use(service, 2 if self.is_quick else 10)
                (parked,) = client.go()
                if int(parked) != count:
                    raise Trouble(f"{kind.name}: {int(parked):,} of {count:,} connections are still parked; the others "
                                  f"were answered or closed")
        memory, descriptors, threads = (it / count for it in grown)
        return {"memory": memory, "descriptors": descriptors, "threads": threads, "none": none, "full": full}

    def parked(self):
        self.head("1,008 parked connections", "KiB a connection", "descriptors a connection", "threads a connection",
                  "idle with them: % of a processor", f"idle without, {PARKED[0]} environments: % of a processor",
                  "KiB / plain C")
        samples = self.interleaved("parked connections", self.parked_ones, min(self.runs, 3))
        ours = samples[self.kinds[0]]
        self.note(f"under {MOST_KIB} KiB a parked connection", ours and [it["memory"] for it in ours],
                  "1,008 parked connections")
        for kind, its in samples.items():
            self.row(kind.name, *([
                spread([it["memory"] for it in its]) + (f", aim under {MOST_KIB}" if kind is self.kinds[0] else ""),
                *(median([it[what] for it in its]) for what in ("descriptors", "threads", "full", "none")),
                self.beside(samples, kind, self.plain, "memory"),
            ] if its else ["failed", *["-"] * 5]))

    def aims(self):
        """Each aim by the row that is farthest from it."""
        self.head("aim", "the farthest from it", "there", "reached")
        for aim, found in self.found.items():
            if not found:
                self.row(aim, "not measured", "-", "-")
            elif aim.startswith("under"):
                value, where = max(found)
                self.row(aim, number(value), where, "yes" if value < MOST_KIB else "no")
            else:
                value, where = min(found)
                wanted = float(aim.split(": ")[-1].split()[0])
                self.row(aim, ratio(value), where, "yes" if value >= wanted else "no")
