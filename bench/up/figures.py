"""The tables of bench/up/run, which can be pasted into docs/speed.md."""
import statistics
import sys


BARE = "bare"  # the service without `up`


def number(it):
    """Three digits, or all before the point."""
    for least, form in ((100, ",.0f"), (10, ".1f"), (0.995, ".2f")):
        if abs(it) >= least:
            return format(it, form)
    return format(it, ".3f") if it else "0"


def spread(values, form=number):
    """The median, with the least and the greatest."""
    median = form(statistics.median(values))
    return f"{median} ({form(min(values))} to {form(max(values))})" if len(values) > 1 else median


def ratio(it):
    return f"{it:.2f}"


class Table:
    def __init__(self, has_before):
        self.has_before = has_before
        columns = ["runtime", "callers", "payload", "way", "rate", "p50, µs", "p99, µs",
                   "CPU µs: up and its relay", "CPU µs: service", "CPU µs: runtime", "rate, to bare"]
        if has_before:
            columns += ["rate, to before", "p50, to before", "CPU of up and its relay, to before", "all CPU, to before"]
        self.line(columns)
        self.line(["---"] * len(columns))

    @staticmethod
    def line(cells):
        print("| " + " | ".join(cells) + " |", flush=True)

    @staticmethod
    def show(what):
        if sys.stderr.isatty():
            print(f"\r\033[K{what}", end="", file=sys.stderr, flush=True)

    def rows(self, runtime, callers, size, samples):
        self.show("")
        for (name, way), found in samples.items():
            bare, before = samples[BARE, "invoke"], samples.get(("before", way))
            whose = f"{runtime}, before" if name == "before" else runtime
            cells = [whose, str(callers), size, BARE if name == BARE else f"up, {way}",
                     *(spread([one[what] for one in found])
                       for what in ("rate", "half", "most", "tools", "service", "runtime")),
                     "-" if name == BARE else self.against(found, bare, "rate")]
            if self.has_before:
                cells += [self.against(found, before, what) if name == "now" and before else "-"
                          for what in ("rate", "half", "tools", "all")]
            self.line(cells)
            throttled = sum(one["throttles"] for one in found)
            if throttled:
                print(f"bench: {whose}, {callers} callers, {way}: {throttled:,.0f} invocations were throttled, and "
                      "made again", file=sys.stderr, flush=True)

    @staticmethod
    def against(found, base, what):
        values = [one[what] / other[what] for one, other in zip(found, base) if other[what] > 0]
        return spread(values, ratio) if values else "-"
