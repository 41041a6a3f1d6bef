"""What the checks of lambda_local timeline have in common: running it, and reading what it drew."""
import json
import os
import subprocess
import xml.etree.ElementTree as ElementTree

from tests import ROOT
from tests.library.cases import Case

TOOL = [os.path.join(ROOT, "lambda_local"), "timeline"]
PROGRAM = os.environ.get("LAMBDA_LOCAL_PROGRAM") or os.path.join(ROOT, "lambda_local")
ENVIRONMENT = dict(os.environ, LAMBDA_LOCAL_PROGRAM=PROGRAM)
NOWHERE = dict(os.environ, LAMBDA_LOCAL_PROGRAM="/nowhere/program")
ONE = '{"account":"123456789012","region":"us-east-2","functions":[{"name":"f","ports":[9001]}]}'
# the configuration as a history has it, with all its members
WHOLE = ('{"account":"123456789012","accountLimit":1000,'
         '"functions":[{"extensions":[],"handler":"index.handler","name":"f","ports":[9001],"timeout":3}],'
         '"invokePort":9000,"leastRemainder":100,"maxEntries":%d,"region":"us-east-2","salt":0}')


def run(*arguments, script=None, environment=ENVIRONMENT):
    """The tool's status, output and standard error."""
    done = subprocess.run([*TOOL, *arguments], input=None if script is None else script.encode(),
                          stdin=None if script is not None
                          else subprocess.DEVNULL, capture_output=True, env=environment, timeout=300)
    return done.returncode, done.stdout.decode(), done.stderr.decode()


def calls_of(script):
    """How many calls a script has."""
    lines = script.splitlines()[2 if script.startswith("form 2") else 1:]
    return sum(1 for line in lines if line and not line.startswith("#"))


def events(trace, category):
    return [event for event in json.loads(trace)["traceEvents"] if event.get("cat") == category]


def phases(trace, environment):
    """The phases of an environment, one after the other."""
    found = [event for event in events(trace, "phase") if event["pid"] == 10 + environment]
    return [event["name"] for event in found]


class TimelineCase(Case):
    """Its checks are very many."""

    prints_each = False

    def draw(self, name, script, *arguments):
        """All four forms of a script's timeline, checked for their grammar and for a span a call. Gives the trace."""
        count = calls_of(script)
        status, text, said = run("--text", *arguments, script=script)
        self.check(f"{name}: text", status == 0 and said == "", shown=said)
        status, trace, said = run("--trace", *arguments, script=script)
        self.check(f"{name}: trace", status == 0, shown=said)
        try:
            spans = events(trace, "call")
            full = events(trace, "full")
            self.check(f"{name}: a span a call in the trace", len(spans) + len(full) == count,
                       shown=f"{len(spans)} + {len(full)} of {count}")
            self.check(f"{name}: spans end after they begin", all(span["dur"] >= 0 for span in spans))
            lanes = {(event["pid"], event["tid"]) for event in json.loads(trace)["traceEvents"]
                     if event["name"] == "thread_name"}
            self.check(f"{name}: each lane has a name", all((span["pid"], span["tid"]) in lanes for span in spans))
            callers = sorted((span["tid"], span["ts"], span["ts"] + span["dur"]) for span in spans if span["pid"] == 1)
            self.check(f"{name}: no two invocations of a caller at once",
                       all(a[0] != b[0] or a[2] <= b[1] for a, b in zip(callers, callers[1:])))
        except ValueError as fault:
            self.check(f"{name}: the trace is JSON", False, shown=str(fault))
            return trace
        for form in ("html", "svg"):
            status, page, said = run(f"--{form}", *arguments, script=script)
            self.check(f"{name}: {form}", status == 0 and said == "", shown=said)
            try:
                tree = ElementTree.fromstring(page.replace("<!DOCTYPE html>\n", ""))
                groups = [group for group in tree.iter("{http://www.w3.org/2000/svg}g")
                          if group.get("class", "").startswith("call ")]
                if form == "svg":
                    groups = [g for g in groups if g.find("{http://www.w3.org/2000/svg}title") is not None]
                self.check(f"{name}: a span a call in the {form}", len(groups) == len(spans),
                           shown=f"{len(groups)} of {len(spans)}")
                names = {element.tag.split("}")[-1] for element in tree.iter()}
                self.check(f"{name}: the {form} has no script and takes nothing from elsewhere",
                           "script" not in names and "link" not in names and "url(" not in page and "src=" not in page)
            except ElementTree.ParseError as fault:
                self.check(f"{name}: the {form} is XML", False, shown=str(fault))
        return trace
