"""Checks what lambda_local timeline draws of the examples, of worked scripts and of random ones, and how much memory a
million lines take. The program is LAMBDA_LOCAL_PROGRAM, else ./lambda_local."""
import glob
import json
import os
import random
import re
import subprocess
import tempfile
from typing import List

from lambda_local.configuration import Members
from lambda_local.timeline.labels import short_names
from tests import ROOT

from tests.library.timelines import (
    ENVIRONMENT, NOWHERE, ONE, PROGRAM, TOOL, WHOLE, TimelineCase, calls_of, events, phases, run)

# Worked scripts: a name, the configuration, the calls, and what environment 1 goes through.
ROWS = (
    ("an invocation", ONE, "500 next 1\n1000 invoke f - - =1\n1200 response 1 1 =2\n1300 next 1",
     "Starting Starting Idle Busy Idle"),
    ("it waits for the runtime", ONE, "0 invoke f - - =1\n1500 next 1", "Starting Starting Busy"),
    ("a timeout and a late response", ONE, "500 next 1\n1000 invoke f - - =1\n4000 response 1 1 =2\n4000 next 1",
     "Starting Starting Idle Busy Closing:TIMEOUT Starting Idle"),
    ("an Init that expires", ONE, "0 invoke f - - =1\n0 invoke f - - =2\n10000 tick",
     "Starting Closing:TIMEOUT Starting"),
    ("an Init that fails", ONE,
     "0 register 1 =x is -\n10 ext-next 1 1\n20 invoke f - - =1\n30 init-failure 1 =no\n40 invoke f - - =2\n"
     "50 ext-next 1 1\n60 ext-next 1 1\n70 next 1\n80 response 1 2 =3", "Starting Closing:FAILURE Starting Busy"),
    ("an extension that exits", ONE,
     "0 register 1 =x i -\n0 ext-next 1 1\n0 next 1\n10 invoke f - - =1\n20 ext-exit-failure 1 1 =E\n"
     "30 response 1 1 =2\n40 ext-next 1 1", "Starting Idle Busy Closing:FAILURE Starting"),
    ("a Closing whose time is over", ONE,
     "0 register 1 =x s -\n0 ext-next 1 1\n0 next 1\n5 spindown 1\n2004 next 1\n2005 next 1",
     "Starting Idle Closing:SPINDOWN Starting Idle"),
    ("a stop", ONE, "0 next 1\n10 invoke f - - =1\n20 stop\n30 next 1\n40 invoke f - - =2\n50 stop",
     "Starting Starting Idle Busy Closing:SPINDOWN Off"),
    ("a poll that is taken back", ONE,
     "0 next 1\n5 withdraw 0\n10 invoke f - - =1\n20 next 1\n30 withdraw 2\n40 response 1 1 =2",
     "Starting Starting Idle Starting Busy"),
    ("a spindown, and a response that is too large", ONE,
     "0 spindown 1\n1 next 1\n2 spindown 1\n3 next 1\n4 invoke f - - =1\n"
     "5 response-too-large 1 1", "Starting Idle Closing:SPINDOWN Starting Idle Busy"),
    ("an expected extension", ONE.replace('"ports":[9001]', '"ports":[9001],"extensions":["x"]'),
     "0 next 1\n1 register 1 =x i -\n2 invoke f - - =1\n3 ext-next 1 1", "Starting Busy"),
    ("moments that go back", ONE, "0 next 1\n10 invoke f - - =1\n5000 tick\n4000 next 1\n4000 invoke f - - =2",
     "Starting Idle Busy Closing:TIMEOUT Starting Idle Busy"),
    ("a full journal", ONE.replace('"region"', '"maxEntries":4,"region"'),
     "0 tick\n0 tick\n0 stop\n0 stop\n0 stop", "Starting Closing:SPINDOWN Off"),
    ("reservations", "form 2\n" + ONE,
     "0 reserve f 1\n0 reserve f 0\n0 invoke f - - =1\n0 reserve f 2\n0 reserve f -\n0 stop\n0 reserve f 1",
     "Starting Closing:SPINDOWN Off"),
    ("odd texts", ONE, "0 register 1 =%3c/title%3e<script>\"'&]]> i -\n1 next 1\n2 invoke f q =trace "
                       "=%00%1b[31m%e2%82%ac%80<b>&amp;\n"
     "3 ext-next 1 1\n4 response 1 1 =\xe9<", "Starting Busy"),
    ("the greatest moments", ONE, "253402300799999 next 1\n253402300800000 invoke f - - =1\n9007199254740991 tick",
     "Starting Idle Busy Closing:TIMEOUT Starting"),
    ("nothing called", ONE, "", ""),
)


def written(parts):
    """Returns the script in the parts of a case; nothing if there are parts of other kinds."""
    made = []
    for title, text in parts:
        word, _, argument = title.partition(" ")
        if word == "script":
            made.append(text)
        elif word == "open":
            made.append(text[:-1])
        elif word == "repeat":
            made.append(text * int(argument))
        elif word == "signs":
            made.append("#" * int(argument))
        elif word == "bytes":
            made.append(bytes.fromhex(argument).decode("latin-1"))
        else:
            return None
    return "".join(made)


def random_script(seed, count=250):
    """A script that a careless client might make, of all calls."""
    pick = random.Random(seed)
    functions: List[Members] = []
    port = 9001
    for name in pick.sample("fgh", pick.randint(1, 3)):
        environments = pick.randint(1, 3)
        function: Members = {"name": name, "ports": list(range(port, port + environments)),
                             "timeout": pick.randint(1, 3)}
        port += environments
        if pick.random() < 0.3:
            function["extensions"] = ["x"]
        if pick.random() < 0.3:
            function["reserved"] = pick.randint(0, environments)
        functions.append(function)
    owners = [function["name"] for function in functions for _ in function["ports"]]
    configuration: Members = {"account": "123456789012", "region": "us-east-2", "functions": functions}
    if pick.random() < 0.3:
        configuration["maxEntries"] = pick.randint(60, 300)
    lines, moment, invokes = ["form 2", json.dumps(configuration)], 0, dict.fromkeys(owners, 0)
    for i in range(count):
        moment += pick.choice((0, 0, 0, 1, 5, 50, 400, 1200, pick.choice((0, 0, 3000, 11000))))
        e, f = pick.randint(1, len(owners)), pick.choice(owners)
        request = max(0, invokes[owners[e - 1]] - pick.choice((0, 0, 0, 1)))
        kind = pick.choices(("next", "invoke", "response", "failure", "response-too-large", "register", "ext-next",
                             "ext-exit-failure",
                             "ext-init-failure", "init-failure", "spindown", "withdraw", "reserve", "tick", "stop"),
                            (25, 17, 10, 5, 3, 9, 20, 2, 1, 1, 2, 2, 2, 1, 0.3))[0]
        fields = {"next": f"{e}", "invoke": f"{f} - - =1", "response": f"{e} {request} =ok",
                  "failure": f"{e} {request} =no",
                  "response-too-large": f"{e} {request}",
                  "register": f"{e} ={pick.choice('xyz')} {pick.choice(('i', 's', 'is', '-'))} -",
                  "ext-next": f"{e} {pick.randint(1, 5)}", "ext-exit-failure": f"{e} {pick.randint(1, 5)} =E",
                  "ext-init-failure": f"{e} {pick.randint(1, 5)} =E", "init-failure": f"{e} =E", "spindown": f"{e}",
                  "withdraw": f"{pick.randint(0, i)}", "reserve": f"{f} {pick.choice('-012')}"}
        invokes[f] += kind == "invoke"
        lines.append(f"{moment} {kind} {fields.get(kind, '')}".rstrip())
    return "\n".join(lines) + "\n"


def history_lines(count):
    """Returns a history of this many lines; four invocations stay open at a time."""
    yield "form 2\n" + (WHOLE % 4294967296).replace("[9001]", "[9001,9002,9003,9004]") + "\n"
    moment, entry, request, lines = 1795556558434, 0, 0, 2
    while lines < count:
        out, polls = [], entry
        for e in range(1, 5):
            out.append(f"{moment} next {e}\n")
        entry += 4
        first = entry
        for e in range(4):
            request += 1
            out.append(f"{moment + 1 + e} invoke f - - ={{\"number\":{request}}}\n# {entry} {polls + e} deliver "
                       f"00000000-0000-8000-8001-{request:012x} {moment + 3001 + e} ={{\"number\":{request}}}\n")
            entry += 1
        for e in range(4):
            out.append(f"{moment + 9 + e} response {e + 1} {request - 3 + e} =ok\n"
                       f"# {entry} {first + e} output =ok\n# {entry} {entry} accepted\n")
            entry += 1
        moment += 20
        lines += 24
        yield "".join(out)


def saved(folder, count):
    """A history of this many lines and its trace in files: the words that have the tool draw them without a program."""
    path = os.path.join(folder, f"{count}.txt")
    with open(path, "w") as file:
        file.writelines(history_lines(count))
    with open(path) as file, open(path + ".jsonl", "w") as trace:
        subprocess.run([PROGRAM, "trace"], stdin=file, stdout=trace, check=True)
    return "--answers", path + ".jsonl", path


def measured(arguments, pieces, environment=ENVIRONMENT):
    """Runs the tool over what is piped into it: its status, its greatest memory in MB, and the seconds of the
    processor."""
    process = subprocess.Popen([*TOOL, *arguments], stdin=subprocess.PIPE, env=environment, stderr=subprocess.DEVNULL)
    assert process.stdin
    for piece in pieces:
        process.stdin.write(piece.encode())
    process.stdin.close()
    _, status, used = os.wait4(process.pid, 0)
    process.returncode = os.waitstatus_to_exitcode(status)
    return process.returncode, used.ru_maxrss / 1024, used.ru_utime + used.ru_stime


class LongOnes(TimelineCase):
    """(What a child is said to have taken is never less than what this process had: these come before the others.)"""

    def test_a_million_lines_are_drawn_within_their_memory(self):
        with tempfile.TemporaryDirectory() as folder:
            small_one, large_one = saved(folder, 50_000), saved(folder, 1_000_000)
            for form in ("text", "trace", "html"):
                small = measured((f"--{form}", "-o", "/dev/null", *small_one), (), NOWHERE)
                large = measured((f"--{form}", "-o", "/dev/null", *large_one), (), NOWHERE)
                print(f"{form}: 50,000 lines {small[1]:.0f} MB, 1,000,000 lines {large[1]:.0f} MB in {large[2]:.0f} s "
                      f"of the processor")
                self.check(f"a million lines as {form}", small[0] == large[0] == 0 and large[1] < 64
                           and large[1] < small[1] + 4, shown=f"{small[1]:.0f} and {large[1]:.0f} MB")

    def test_a_script_of_15000_calls_is_drawn_through_the_program(self):
        calls = [ONE.replace('"region"', '"maxEntries":4000000000,"region"') + "\n"]
        calls += [f"{9 * i} next 1\n{9 * i + 1} invoke f - - ={i}\n{9 * i + 2} response 1 {i} =ok\n"
                  for i in range(1, 5001)]
        status, memory, _ = measured(("--text", "-o", "/dev/null"), calls)
        self.check("a script of 15,000 calls through the program", status == 0 and memory < 64,
                   shown=f"status {status}, {memory:.0f} MB")


class Timeline(TimelineCase):
    def test_examples_are_drawn_with_their_answers(self):
        for path in sorted(glob.glob(os.path.join(ROOT, "examples", "*.txt"))):
            name = os.path.basename(path)
            script = open(path).read()
            trace = self.draw(name, script)
            told = {event["args"]["call"]: event["args"]["answer"] for event in events(trace, "call")}
            # an example's comments say what is answered
            for ticket, word in re.findall(r"^# \d+ (\d+) ([a-z-]+)", script, re.MULTILINE):
                self.check(f"{name}: call {ticket} is answered {word}", told.get(int(ticket), "").split(" ")[0] == word,
                           shown=told.get(int(ticket), ""))

    def test_rows_have_their_phases_and_resets(self):
        for name, configuration, calls, wanted in ROWS:
            trace = self.draw(name, f"{configuration}\n{calls}\n" if calls else configuration)
            # a phase that ends in the entry in which it began says nothing; the very first one may
            went = [re.sub(r" \((\w+)\)", r":\1", phase) for phase in phases(trace, 1)]
            in_turn = wanted.replace("Starting Starting", "Starting").split()
            self.check(f"{name}: the phases", went == in_turn, shown=" ".join(went))
            resets = [event["name"].replace("reset: ", "Closing:") for event in events(trace, "reset")
                      if event["pid"] == 11]
            self.check(f"{name}: a reset for each Closing",
                       resets == [phase for phase in in_turn if phase.startswith("Closing")], shown=str(resets))

    def test_worked_examples_are_drawn(self):
        """Draws the cases of worked examples that are scripts without a fault."""
        drawn = 0
        for path in sorted(glob.glob(os.path.join(ROOT, "tables", "checks", "data", "scripts", "*.txt"))):
            for case in re.split(r"^== ", open(path).read(), flags=re.M)[1:]:
                name, *rest = re.split(r"^-- (.*)\n", case, flags=re.M)
                *parts, (_, answers) = zip(rest[::2], rest[1::2])
                script = written(parts)
                answers = answers.removesuffix("\n\n") + "\n" if answers.endswith("\n\n") else answers
                if (script and len(script) < 100_000
                        and re.fullmatch(r"(\d+ \d+ [a-z-]+.*\n|refused JournalFull\n)*", answers)):
                    drawn += 1
                    self.draw(f"{os.path.basename(path)}, {name.strip()}", script, "--limit", "100000")
        self.check("worked examples are drawn", drawn > 20, shown=str(drawn))

    def test_random_scripts_are_drawn_as_their_answers_show(self):
        """The expiries and phases that the tool finds are those that the program's answers show."""
        for seed in range(40):
            script = random_script(seed)
            status, trace, said = run("--trace", script=script)
            self.check(f"random script {seed}", status == 0, shown=said)
            if status:
                continue
            spans = events(trace, "call")
            self.check(f"random script {seed}: a span a call", len(spans)
                       + len(events(trace, "full")) == calls_of(script))
            ends = lambda word: [span for span in spans if span["args"]["answer"].startswith(word)]
            delivered = sorted((span["pid"], span["ts"] + span["dur"]) for span in ends("deliver"))
            busy = sorted((phase["pid"], phase["ts"]) for phase in events(trace, "phase") if phase["name"] == "Busy")
            self.check(f"random script {seed}: a Busy for each delivery", delivered == busy)
            closings = [phase for phase in events(trace, "phase") if phase["name"].startswith("Closing")]
            self.check(f"random script {seed}: the reasons that extensions were told", all(
                any(closing["pid"] == span["pid"] and closing["name"].split("(")[1][:-1] in span["args"]["answer"]
                    and closing["ts"] <= span["ts"] + span["dur"] <= closing["ts"] + closing["dur"]
                    for closing in closings)
                for span in ends("shutdown")))

    def test_labels_tell_long_names_apart(self):
        """The rows of functions with long names are told apart, and each has the whole name as its title."""
        names = [f"my-service-production-{name}" for name in ("hello", "orders", "orders-refund-worker-of-the-night")]
        one = json.loads(ONE)
        functions = [{**one["functions"][0], "name": name, "ports": [9001 + n]} for n, name in enumerate(names)]
        status, picture, said = run("--svg", script=json.dumps({**one, "functions": functions}) + "\n0 tick\n")
        labels = re.findall(r'<text class="head"[^>]*>([^<]*)', picture)
        self.check("labels by what differs", (status, labels), (
            0, ["\u2026hello \u00b7 1", "\u2026orders \u00b7 2", "\u2026order\u2026f-the-night \u00b7 3"]),
            shown=said or labels)
        titles = re.findall(r"<title>([^<]* \u00b7 environment \d)</title>", picture)
        self.check("titles", titles, [f"{name} \u00b7 environment {n}" for n, name in enumerate(names, 1)])
        self.check("short names stay", short_names(["a-hello", "a-orders"], 20), {
            "a-hello": "a-hello", "a-orders": "a-orders"})
        self.check("a single one", short_names(["a" * 40 + "b"], 10), {"a" * 40 + "b": "aaa\u2026aaaaab"})
        self.check("with no room", short_names(["abcdef"], 1), {"abcdef": "\u2026f"})

    def test_pictures_of_the_pages_are_those_that_the_tool_draws(self):
        """The pictures in docs are those that the tool draws of the examples."""
        for path in sorted(glob.glob(os.path.join(ROOT, "docs", "pictures", "*.svg"))):
            name = os.path.splitext(os.path.basename(path))[0]
            status, picture, said = run("--svg", os.path.join(ROOT, "examples", name + ".txt"))
            self.check(f"docs/pictures/{name}.svg", status == 0 and picture == open(path).read(),
                       shown=said or "lambda_local timeline --svg draws another one")
