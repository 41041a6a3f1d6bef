"""Reads what `valgrind --tool=callgrind` writes: the instructions of each function, of each call, and how often it was
made. The format is of Valgrind's manual, section "Callgrind Format Specification"."""
import collections
import re

# A name that Rattle's compiler derived: what follows is a number of an instance, or a type's arguments.
INSTANCE = re.compile(r"::<.*?>(?=[+']|$)|'\d+$")


class Counts:
    """Instructions of functions (`own`) and of calls (`calls`, by caller and callee), and the calls' numbers (`made`).
    `objects` has the file of each function. One may be taken from another, and divided."""

    def __init__(self):
        self.own, self.calls, self.made = (collections.Counter() for _ in range(3))
        self.objects = {}

    def __sub__(self, other):
        result = Counts()
        result.objects = self.objects
        for name in ("own", "calls", "made"):
            mine, its = getattr(self, name), getattr(other, name)
            getattr(result, name).update({key: count - its[key] for key, count in mine.items() if count != its[key]})
        return result

    def __truediv__(self, number):
        result = Counts()
        result.objects = self.objects
        for name in ("own", "calls", "made"):
            getattr(result, name).update({key: count / number for key, count in getattr(self, name).items()})
        return result

    def whole(self):
        return sum(self.own.values())

    def functions(self, pattern):
        """The functions whose names match from their beginning."""
        return {it for it in self.objects if re.match(pattern, it)}

    def inclusive(self, functions):
        """The instructions of these functions, and of all that they call; what one of them calls in another counts
        once."""
        return sum(self.own[it] for it in functions) + sum(
            count for (caller, callee), count in self.calls.items() if caller in functions and callee not in functions)

    def entered(self, functions):
        """How often these functions are called by others."""
        return sum(count for (caller, callee),
                   count in self.made.items() if callee in functions and caller not in functions)

    def by_crate(self):
        """The instructions of each crate by itself; what is of no crate counts for its file."""
        result = collections.Counter()
        for name, count in self.own.items():
            result[crate_of(name, self.objects.get(name, ""))] += count
        return result


def crate_of(name, file):
    if name.startswith("rattle_"):
        return "rattle's runtime"
    if "::" in name:
        return name.partition("::")[0]
    return file.rpartition("/")[2] or "?"


class Reader:
    """Adds up files, each of which has the instructions of one thread."""

    def __init__(self):
        self.counts, self.names = Counts(), {}

    def named(self, kind, text):
        """A name may be given a number, by which it is meant in the rest of its file."""
        number, _, name = text.partition(" ") if text.startswith("(") else (None, None, text)
        if name and number:
            self.names[kind, number] = name
        return name or self.names[kind, number]

    def read(self, path):
        self.names = {}
        function = callee = file = of_callee = made = None
        counts = self.counts
        with open(path, encoding="utf-8", errors="replace") as lines:
            for line in lines:
                word, _, rest = line.rstrip("\n").partition("=")
                if word == "ob":
                    file = self.named("ob", rest)
                elif word == "cob":
                    of_callee = self.named("ob", rest)
                elif word == "fn":
                    function = self.named("fn", rest)
                    counts.objects.setdefault(function, file)
                elif word == "cfn":
                    callee = self.named("fn", rest)
                    counts.objects.setdefault(callee, of_callee or file)
                    of_callee = None
                elif word == "calls":
                    made = int(rest.split()[0])
                elif line[:1] in "0123456789+-*" and function:
                    cost = int((line.split() + ["0"])[1])
                    if made is None:
                        counts.own[function] += cost
                    else:
                        counts.calls[function, callee] += cost
                        counts.made[function, callee] += made
                        made = None


def read(paths):
    """The counts of these files together."""
    reader = Reader()
    for path in paths:
        reader.read(path)
    return reader.counts


def short(name):
    """Returns a function's name without the part that distinguishes its instances."""
    return INSTANCE.sub("", name)
