"""Checks lambda_local timeline --otlp: that what it writes is as the JSON encoding of OTLP has it
(https://opentelemetry.io/docs/specs/otlp/#json-protobuf-encoding), and which spans there are. The program is
LAMBDA_LOCAL_PROGRAM, else ./lambda_local."""
import json
import os
import re
import tempfile
from typing import Dict

from tests.library.timelines import ONE, TimelineCase, run
from tests.tools.test_timeline import random_script

# The members of each message that are used, with the JSON type of each.
MEMBERS: Dict[str, Dict[str, type]] = {
    "request": {"resourceSpans": list}, "resourceSpans": {"resource": dict, "scopeSpans": list},
    "resource": {"attributes": list}, "scopeSpans": {"scope": dict, "spans": list}, "scope": {"name": str},
    "spans": {"traceId": str, "spanId": str, "parentSpanId": str, "name": str, "kind": int, "startTimeUnixNano": str,
              "endTimeUnixNano": str, "attributes": list, "status": dict},
    "status": {"code": int, "message": str}, "attributes": {"key": str, "value": dict},
    "value": {"stringValue": str, "intValue": str, "boolValue": bool}}
OPTIONAL = {"spans": {"parentSpanId", "status"}, "value": {"stringValue", "intValue", "boolValue"}}
CALLER = "Root=1-5759e988-bd862e3fe1be46a994272793;Parent=53995c3f42cd8ad8;Sampled=1"
CALLERS_TRACE, CALLERS_SPAN = "5759e988bd862e3fe1be46a994272793", "53995c3f42cd8ad8"


def wrong(message, name="request"):
    """What is not as the encoding has it."""
    wanted = MEMBERS[name]
    for member, value in message.items():
        if type(value) is not wanted.get(member):
            yield f"{name}: {member} is {value!r}"
        for inner in value if isinstance(value, list) else [value] if isinstance(value, dict) else []:
            yield from wrong(inner, member)
    if missing := set(wanted) - set(message) - OPTIONAL.get(name, set()):
        yield f"{name} has no {missing}"
    if name == "value" and len(message) != 1:
        yield f"a value is one of several: {message}"
    for member, form in {"traceId": "[0-9a-f]{32}", "spanId": "[0-9a-f]{16}", "parentSpanId": "[0-9a-f]{16}",
                         "startTimeUnixNano": "0|[1-9][0-9]{0,19}", "endTimeUnixNano": "0|[1-9][0-9]{0,19}",
                         "intValue": "-?(0|[1-9][0-9]{0,18})"}.items():
        if member in message and not (re.fullmatch(form, str(message[member]))
                                      and (not member.endswith("Id") or message[member].strip("0"))):
            yield f"{name}: {member} is {message[member]!r}"


class Spans(TimelineCase):
    def spans_of(self, name, script, *more):
        """The spans of a script, by their order of ends, whose form is checked."""
        status, text, said = run("--otlp", *more, script=script)
        self.check(f"{name}: is written", status, 0, shown=said)
        request = json.loads(text)
        self.check(f"{name}: as the encoding has it", list(wrong(request)), [])
        spans = [span for part in request["resourceSpans"] for scope in part["scopeSpans"] for span in scope["spans"]]
        self.check(f"{name}: no span ends before it begins", [span for span in spans if int(span["startTimeUnixNano"])
                                                             > int(span["endTimeUnixNano"])], [])
        known = [(span["traceId"], span["spanId"]) for span in spans]
        self.check(f"{name}: each has an identifier of its own", len(known), len(set(known)))
        return spans

    def told(self, spans):
        return [(span["name"], int(span["startTimeUnixNano"]) // 1_000_000, int(span["endTimeUnixNano"]) // 1_000_000,
                 span.get("status", {}).get("message")) for span in spans]

    def test_an_init_a_timeout_and_a_shutdown_are_spans(self):
        spans = self.spans_of("an Init, a timeout and a shutdown", ONE + "\n10 invoke f - - =1\n20 next 1\n"
                              "3020 tick\n4000 next 1\n4500 invoke f - - =2\n4600 failure 1 2 =no\n4700 spindown 1\n")
        self.check("the spans", self.told(spans), [
            ("Init", 10, 20, None), ("f", 10, 3020, "timeout"), ("Shutdown", 3020, 3020, None),
            ("Init", 4000, 4000, None), ("f", 4500, 4600, "error no")])
        self.check("an Init is part of the invocation that waits for it", (spans[0]["parentSpanId"],
                                                                          spans[0]["traceId"]),
                   (spans[1]["spanId"], spans[1]["traceId"]))
        self.check("another one is by itself", "parentSpanId" in spans[3], False)
        self.check("an invocation's own trace is its request identifier", spans[1]["traceId"],
                   "00000000000080008001000000000001")

    def test_a_failed_init_is_part_of_its_invocation(self):
        spans = self.spans_of("an Init that fails", ONE + "\n10 invoke f - - =1\n10010 tick\n")
        self.check("its spans", self.told(spans), [("f", 10, 10010, "init-timeout"), ("Init", 10, 10010, "TIMEOUT"),
                                                   ("Shutdown", 10010, 10010, None)])
        self.check("it is part of that invocation", spans[1]["parentSpanId"], spans[0]["spanId"])

    def test_a_shutdown_lasts_until_its_extension_is_done(self):
        spans = self.spans_of("a shutdown with an extension", ONE + "\n0 register 1 =x s -\n0 ext-next 1 1\n5 next 1\n"
                              "9 spindown 1\n30 ext-next 1 1\n")
        self.check("it lasts until the extension is done", self.told(spans),
                   [("Init", 0, 5, None), ("Shutdown", 9, 30, None)])

    def test_what_goes_on_ends_with_the_history(self):
        spans = self.spans_of("what goes on", ONE + "\n0 invoke f - - =1\n0 invoke f - - =2\n7 tick\n")
        self.check("it ends with the history", self.told(spans), [
            ("f", 0, 0, "throttled LocalEnvironmentLimitExceeded"), ("f", 0, 7, None)])

    def test_a_callers_trace_is_that_of_its_spans(self):
        """The trace of a caller's X-Amzn-Trace-Id."""
        for name, header, trace, parent in (
            ("with a parent", CALLER, CALLERS_TRACE, CALLERS_SPAN),
            ("in another order", "Sampled=0; Parent=53995c3f42cd8ad8; Root=1-5759e988-BD862e3fe1be46a994272793",
             CALLERS_TRACE, CALLERS_SPAN),
            ("of the root alone", CALLER.split(";")[0], CALLERS_TRACE, None),
            ("of zeros", "Root=1-00000000-000000000000000000000000;Parent=53995c3f42cd8ad8", None, None),
            ("with a parent of zeros", CALLER.replace(CALLERS_SPAN, "0" * 16), CALLERS_TRACE, None),
            ("of another form", "Root=1-5759e988-bd862e3fe1be46a99427279;Parent=53995c3f42cd8ad8", None, None),
            ("none", None, None, None),
        ):
            field = "-" if header is None else f"={header.replace(' ', '%20')}"
            spans = self.spans_of(name, f"{ONE}\n0 invoke f - {field} =1\n5 next 1\n")
            self.check(f"a trace {name}", [(span["traceId"], span.get("parentSpanId")) for span in spans][-1],
                       (trace or "00000000000080008001000000000001", parent))
            self.check(f"a trace {name}: the Init is in it too", spans[0]["traceId"], spans[-1]["traceId"])

    def test_random_scripts_have_a_span_for_each_invocation(self):
        for seed in range(12):
            script = random_script(seed)
            spans = self.spans_of(f"random script {seed}", script)
            invokes = sum(1 for line in script.splitlines() if re.match(r"\d+ invoke ", line))
            status, text, _ = run("--text", script=script)
            full = len(re.findall(r"account: invoke \w+: refused JournalFull", text))
            names = json.loads(script.splitlines()[1])["functions"]
            seen = sum(span["name"] in {function["name"] for function in names} for span in spans)
            self.check(f"random script {seed}: a span an invocation", seen, invokes - full)
            resets = len(re.findall(r": reset, \w+: Closing", text))
            over = sum(span["name"] == "Shutdown" for span in spans)
            self.check(f"random script {seed}: a span a shutdown that is over", resets - 3 <= over <= resets, shown=(
                over, resets))

    def test_a_window_has_its_spans(self):
        script = ONE + "\n0 next 1\n" + "".join(f"{100 * i} invoke f - - =1\n{100 * i + 50} response 1 {i} =2\n"
                                                f"{100 * i + 60} next 1\n" for i in range(1, 20))
        self.check("in a window", len(self.spans_of("a window", script, "--from", "500", "--to", "720")), 3)

    def test_more_spans_than_are_in_memory_are_written(self):
        many = ONE.replace('"region"', '"maxEntries":99999,"region"') + "\n0 next 1\n" + "".join(
            f"{i} invoke f - - =1\n{i} response 1 {i} =2\n{i} next 1\n" for i in range(1, 2500))
        spans = self.spans_of("many", many)
        self.check("more spans than are in memory", len(spans), 2500)

    def test_a_fault_leaves_no_file(self):
        with tempfile.TemporaryDirectory() as folder:
            path = os.path.join(folder, "spans.json")
            status, _, said = run("--otlp", "-o", path, script=ONE + "\n0 tock\n")
            self.check("a fault leaves no file", (status, os.listdir(folder)), (2, []), shown=said)
        self.check("nothing", json.loads(run("--otlp", script=ONE)[1]), {"resourceSpans": []})
