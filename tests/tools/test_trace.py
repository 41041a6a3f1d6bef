"""Checks the trace of random scripts (`./lambda_local trace`), of all kinds of calls: the script and the answers of its
replay can be written again from the trace, so nothing is lost; what is charged is released once, later; without bodies
their lengths are there, and all else is the same; the phases are those that `./lambda_local timeline` draws; and the
tools read each entry as it is. TRACES=N in the environment takes N random scripts (default: 40)."""
import base64
import json
import os
import subprocess

from tests.library.timelines import ONE, PROGRAM, TimelineCase, events, phases, run
from tests.library.traces import entries_in
from tests.tools.test_timeline import random_script

# What the words of a line of a script are for, by kind: members of the call's object.
FIELDS = {
    "invoke": ("function", "qualified", "trace", "body"), "next": ("environment",),
    "response": ("environment", "id", "body"), "failure": ("environment", "id", "body"),
    "response-too-large": ("environment", "id"), "init-failure": ("environment", "body"),
    "register": ("environment", "name", "events", "account"), "ext-next": ("environment", "extension"),
    "ext-init-failure": ("environment", "extension", "body"), "ext-exit-failure": ("environment", "extension", "body"),
    "withdraw": ("ticket",), "spindown": ("environment",), "reserve": ("function", "count"), "tick": (), "stop": ()}
# The same of an answer's line.
WORDS = {
    "deliver": ("request", "deadline", "body"), "tell": ("event", "request", "deadline"),
    "shutdown": ("event", "reason", "deadline"), "registered": ("extension",), "output": ("body",), "error": ("body",),
    "throttled": ("reason",), "refused": ("reason",), "reserved": ("count",), **dict.fromkeys(
        ("timeout", "init-timeout", "too-large-output", "stopped", "withdrawn", "unreserved", "accepted", "done"), ())}


def replayed(script, *words):
    done = subprocess.run([PROGRAM, *words], input=script.encode(), capture_output=True, timeout=300)
    return done.stdout.decode() if done.returncode == 0 else f"status {done.returncode}: {done.stderr.decode()}"


def traced(script, *words):
    return [json.loads(line) for line in replayed(script, "trace", *words).splitlines()]


def text_field(item):
    """The bytes of an object as a script has them."""
    return shown_bytes(item["body"].encode() if "body" in item
                       else base64.b64decode(item["bodyBase64"], validate=True))


def shown_bytes(whole):
    return "=" + "".join(chr(byte) if 0x21 <= byte <= 0x7E and byte != 0x25 else f"%{byte:02X}" for byte in whole)


def word(item, name):
    if name == "body":
        return text_field(item)
    if name == "qualified":
        return "q" if item[name] else "-"
    if name == "account":
        return "a" if item[name] else "-"
    if name == "events":
        return "i" * item["invoke"] + "s" * item["shutdown"] or "-"
    if name in ("trace", "name"):
        return f"={item[name]}" if name in item else "-"
    return str(item.get(name, "-"))


def line_again(entry):
    """The line of a script that makes this entry; nothing for an expiry."""
    call = entry["call"]
    return [] if call["kind"] == "expire" else [
        " ".join([str(entry["moment"]), call["kind"], *(word(call, name) for name in FIELDS[call["kind"]])])]


def answers_again(entry):
    """The lines that a replay writes for this entry."""
    return [" ".join([str(entry["ticket"]), str(answer["ticket"]), answer["answer"],
                      *(word(answer, name) for name in WORDS[answer["answer"]])]) for answer in entry["answers"]]


def canonical(script):
    """The lines of a script without comments, each at the moment at which its call is taken, as far as the journal has
    room: what a replay refuses as full makes no entry."""
    form, configuration, *lines = script.splitlines()
    answers, moment = replayed(script, "replay").splitlines(), 0
    room = len(lines) - answers.count("refused JournalFull")
    again = []
    for line in lines:
        now, rest = line.split(" ", 1)
        moment = max(moment, int(now))
        again.append(f"{moment} {rest}")
    return form, configuration, again, room


# The members of a trace that the tools name otherwise, by what has them.
NAMED = {"call": {"reserved": "count"}, "answer": {"word": "answer", "source": "invoke", "reserved": "count"},
         "phase": {"name": "phase"}}
OF_REGISTER, OF_INVOKE = ("invoke", "shutdown", "account"), ("qualified",)  # that others do not have


def object_of(made, what):
    """What the tools have read, as the trace has it. (Bytes are shown as a script has them.)"""
    names = {**NAMED[what], **({"source": "source"} if getattr(made, "word", "") in ("output", "error") else {})}
    found = {names.get(name, name): value for name, value in made._asdict().items() if value is not None}
    if what == "call":
        for kind, flags in (("register", OF_REGISTER), ("invoke", OF_INVOKE)):
            for name in flags if made.kind != kind else ():
                assert not found.pop(name)
    return {name: str(value) if name == "answer" else shown_bytes(value) if name == "body" else value
            for name, value in found.items()}


def with_shown_bytes(item):
    """An object of a trace with its bytes in one form."""
    body = {"body": text_field(item)} if "body" in item or "bodyBase64" in item else {}
    return {**{name: value for name, value in item.items() if not name.startswith("body")}, **body}


def entry_again(entry):
    """The object of an entry that the tools have read."""
    found = {name: value for name, value in entry._asdict().items() if value is not None}
    return {**found, "call": object_of(entry.call, "call"), "released": list(entry.released),
            "answers": [object_of(answer, "answer") for answer in entry.answers],
            "phases": [object_of(phase, "phase") for phase in entry.phases]}


def once(names):
    """Names without "closing", each run of equal ones once."""
    names = [name for name in names if name != "closing"]
    return [name for place, name in enumerate(names) if place == 0 or names[place - 1] != name]


class Traces(TimelineCase):
    def test_traces_of_random_scripts_lose_nothing_and_are_read_as_they_are(self):
        for seed in range(int(os.environ.get("TRACES", "40"))):
            script = random_script(seed)
            trace = traced(script)
            self.nothing_lost(seed, script, trace)
            self.in_flight(seed, trace)
            self.same_phases(seed, script, trace)
            self.as_read(seed, script, trace)
            self.without_bodies(seed, script, trace)

    def test_bodies_of_each_byte_are_in_the_trace(self):
        """Bodies of each byte, and of none."""
        bodies = [bytes([byte]) for byte in range(256)] + [b"", bytes(range(256)), "\u00e9\U0001f600".encode()]
        lines = "".join(f"0 invoke f - - ={''.join(f'%{byte:02x}' for byte in body)}\n" for body in bodies)
        calls = [entry["call"] for entry in traced(f"{ONE}\n{lines}")]
        self.check("bodies", [call["body"].encode() if "body" in call
                              else base64.b64decode(call["bodyBase64"], validate=True) for call in calls], bodies)
        self.check("as text if they are UTF-8", sum("body" in call for call in calls), 128 + 2)

    def nothing_lost(self, seed, script, trace):
        form, configuration, lines, room = canonical(script)
        again = [line for entry in trace for line in line_again(entry)]
        self.check(f"{seed}: as many calls", len(again), room)
        if room == len(lines):
            self.check(f"{seed}: the calls", again, lines)
        anew = "\n".join([form, configuration, *again]) + "\n"
        answers = [line for line in replayed(script, "replay").splitlines() if line != "refused JournalFull"]
        self.check(f"{seed}: the answers", [line for entry in trace for line in answers_again(entry)], answers)
        self.check(f"{seed}: the replay of the calls", replayed(anew, "replay").splitlines(), answers)
        self.check(f"{seed}: the trace of the calls", traced(anew), trace)

    def in_flight(self, seed, trace):
        flying = set()
        for ticket, entry in enumerate(trace):
            name = f"{seed}, ticket {ticket}"
            self.check(f"{name}: what is placed is charged", (entry["ticket"], "place" in entry),
                       (ticket, "charged" in entry))
            if "charged" in entry:
                self.check(f"{name}: its own ticket is charged", entry["charged"], ticket)
                flying.add(ticket)
            self.check(f"{name}: what is released was in flight", flying.issuperset(entry["released"]))
            flying.difference_update(entry["released"])
            self.check(f"{name}: an expiry names its environment", entry.get("expires"),
                       entry["call"]["environment"] if entry["call"]["kind"] == "expire" else None)
        last = {}
        for entry in trace:
            last.update({phase["environment"]: phase for phase in entry["phases"]})
        held = {phase[name] for phase in last.values() for name in ("bound", "invoke") if name in phase}
        self.check(f"{seed}: what is in flight at the end is at an environment", flying, held)

    def same_phases(self, seed, script, trace):
        """The names of the phases of each environment, one after the other. A phase that begins anew counts once. A
        Closing counts for nothing: the timeline also draws one that ends in the entry in which it began."""
        status, drawn, said = run("--trace", script=script)
        self.check(f"{seed}: is drawn", status, 0, shown=said)
        environments = len([port for function in json.loads(script.splitlines()[1])["functions"]
                            for port in function["ports"]])
        for environment in range(1, environments + 1):
            wanted = [name.split(" (")[0].lower() for name in phases(drawn, environment)]
            seen = ["starting"] + [phase["phase"] for entry in trace for phase in entry["phases"]
                                   if phase["environment"] == environment]
            self.check(f"{seed}: the phases of environment {environment}", once(seen), once(wanted))
        self.check(f"{seed}: a span a call", len(events(drawn, "call")) <= len(trace) + script.count("\n"))

    def as_read(self, seed, script, trace):
        """What the tools read, entry by entry."""
        for made, given in zip(entries_in(script), trace):
            seen, wanted = entry_again(made), {**given, "call": with_shown_bytes(given["call"]),
                                               "answers": [with_shown_bytes(answer) for answer in given["answers"]]}
            if seen != wanted:
                return self.check(f"{seed}, ticket {made.ticket}: as the trace has it", seen, wanted)
        self.check(f"{seed}: as the trace has it", True)

    def without_bodies(self, seed, script, trace):
        for entry in trace:
            for item in (entry["call"], *entry["answers"]):
                if "body" in item:
                    item["bodyLength"] = len(item.pop("body").encode())
                elif "bodyBase64" in item:
                    item["bodyLength"] = len(base64.b64decode(item.pop("bodyBase64")))
        self.check(f"{seed}: without bodies", traced(script, "--bodies", "none"), trace)
