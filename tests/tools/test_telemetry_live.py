"""Checks the Telemetry API and the Logs API of lambda_local up with real processes: extensions that subscribe over HTTP
and TCP, receivers that are slow, away or wrong, and the history of the same calls. The program is LAMBDA_LOCAL_PROGRAM,
else ./lambda_local."""
import http.client
import json
import os
import re
import time
from typing import Dict, Tuple, Union

from lambda_local.configuration import Members
from lambda_local.life import Ended, Life
from lambda_local.service import ask
from tests import ROOT
from tests.library.cases import Case
from tests.library.telemetry_kit import (APP, LOGS, PROBE, TELEMETRY, events, function, noted, probe, subscription,
                           types)
from tests.library.up_kit import Up, until
from tests.library.traces import entries_in

MADE_IN_INIT = 5  # initStart, telemetrySubscription, initRuntimeDone, extension, initReport
MADE_BY_INVOCATION = 3  # start, runtimeDone, report
INIT = ["initStart", "telemetrySubscription", "initRuntimeDone:success", "extension", "initReport:success"]


def platform(found):
    return [event for event in found if event["type"].startswith("platform.")]


def endings(up):
    """The identifiers and the ends of the invocations in the history, in order."""
    history = up.history()
    life = Life(json.loads(history.splitlines()[1]))
    found = [event for entry in entries_in(history) for event in life.take(entry)]
    return [(event.invocation.identifier, event.kind) for event in found if isinstance(event, Ended)]


def in_turn(kinds):
    """With the subscription first in each Init: it may come before or after the runtime's part."""
    found = list(kinds)
    for at, kind in enumerate(found):
        if kind == "telemetrySubscription" and found[at - 1].startswith("initRuntimeDone"):
            found[at - 1:at + 1] = found[at], found[at - 1]
    return found


STATUSES = {"output": "success", "error": "error", "timeout": "timeout", "too-large-output": "error"}


def summed(up, name):
    """Events but for those that say what was dropped, and what these say."""
    found = events(up, name)
    notes = [event["record"] for event in found if event["type"] == "platform.logsDropped"]
    return len(found) - len(notes), sum(note["droppedRecords"] for note in notes), sum(
        note["droppedBytes"] for note in notes)


LEAKING = '''import os, socket
KEPT = []
def run(event):
    host, port = os.environ["AWS_LAMBDA_RUNTIME_API"].split(":")
    for _ in range(event.get("leak", 0)):
        KEPT.append(socket.create_connection((host, int(port))))
        KEPT[-1].sendall(event.get("sends", "").encode())
    return len(KEPT)
'''


MISTAKES: Dict[str, Tuple[Members, str]] = {
    "telemetry that is a text": ({"telemetry": "yes", "extensions": {"x": "true"}, "command": "true"},
                                 'telemetry must be true or false, not "yes"'),
    "telemetry without extensions": ({"telemetry": True, "command": "true"},
                                     'telemetry is for its extensions: write "extensions", or leave it out'),
    "telemetry of a runtime that you start": ({"telemetry": True, "extensions": {"x": None}},
                                              "telemetry is for its extensions: you start its runtime yourself, so "
                                              "leave it out"),
}
# A function whose output is the address of its environment.
ADDRESS = "import os\ndef run(event): return os.environ['AWS_LAMBDA_RUNTIME_API']\n"


class TelemetryLive(Case):
    def started(self, extensions, *options, app=APP, whole={}, **members):
        up = Up(*options, functions=[function(extensions, **members)], files={"probe": PROBE}, app=app, whole=whole)
        self.check("it is ready", up.until("[up] ready"), True)
        return up

    def test_events_over_HTTP_and_TCP_are_what_the_history_says(self):
        """Events over HTTP and over TCP are the same, and are what the history says."""
        up = self.started({"x": probe(), "y": probe(protocol="TCP", body=subscription(schema="2025-01-29"))}, timeout=2)
        self.check("an invocation", up.invoke(lines=["one", "two"])[0], 1)
        self.check("one that fails", up.invoke(do="fail")[0], "KeyError")
        self.check("one whose response is too large", up.invoke(do="large")[0], "Function.ResponseSizeTooLarge")
        self.check("and one more", up.invoke(returns=[1, 2])[0], [1, 2])
        until(lambda: types(platform(events(up)))[-1:] == ["report:success"] and len(platform(events(up))) >= 18, 10)
        until(lambda: len(events(up, "y")) >= len(events(up)), 10)
        over_http, over_tcp = events(up), events(up, "y")
        # (with two extensions there are two of each of these events)
        extra = {"telemetrySubscription", "extension"}
        self.check("an Init, and four invocations", [kind for kind in types(platform(over_http)) if kind not in extra],
                   [kind for kind in INIT if kind not in extra] + [
                       "start", "runtimeDone:success", "report:success", "start", "runtimeDone:error", "report:error",
                       "start", "runtimeDone:error", "report:error", "start", "runtimeDone:success", "report:success"])
        reports = [event["record"] for event in over_http if event["type"] == "platform.report"]
        self.check("requests and ends are the history's", [(report["requestId"], report["status"])
                                                           for report in reports],
                   [(identifier, STATUSES[kind]) for identifier, kind in endings(up)])
        self.check("the types of errors", [report.get("errorType") for report in reports],
                   [None, "Runtime.KeyError", "Function.ResponseSizeTooLarge", None])
        self.check("the bytes of responses", [event["record"]["metrics"]["producedBytes"] for event in over_http
                                              if event["type"] == "platform.runtimeDone"][::3], [1, 6])
        lines = [event["record"] for event in over_http if event["type"] == "function"]
        self.check("the function's lines", (lines[:3], "KeyError: 'x'" in lines),
                   (["one", "two", "Traceback (most recent call last):"], True))
        self.check("TCP has the same events", sorted(map(json.dumps, platform(over_tcp))),
                   sorted(map(json.dumps, platform(over_http))))
        batch = noted(up, "x", "batch")[0]
        self.check("a batch is a POST of JSON to what was named", batch[:2] + batch[3:4],
                   ["POST", "/got?it", "application/json"])
        self.check("with its Host", batch[2].startswith("sandbox.localdomain:"), True)
        self.check("the answer to a subscription", noted(up, "x", "subscribed"), [[200, "application/json", '"OK"']])
        self.check("times are in order", [event["time"] for event in over_http] == sorted(event["time"]
                                                                                          for event in over_http),
                   True)
        memory = reports[0]["metrics"]["maxMemoryUsedMB"]
        self.check("the memory is that of a process", 5 < memory < 500, True)
        self.check("it ends", up.end(), (0, []))

    def test_timeouts_exits_and_restarts_are_told(self):
        """Timeouts, exits and restarts."""
        up = self.started({"x": probe(events=["INVOKE", "SHUTDOWN"])}, timeout=1)
        self.check("an invocation", up.invoke()[0], 1)
        self.check("a timeout", up.invoke(do="hang")[0], "Function.Timeout")
        self.check("an exit", up.invoke(patience=20, do="exit")[0], "Runtime.ExitError")
        self.check("an invocation after them", up.invoke(patience=20)[0], 1)
        until(lambda: types(platform(events(up))).count("report:success") == 2, 10)
        seen = in_turn(types(platform(events(up))))
        invocation = ["start", "runtimeDone:success", "report:success"]
        self.check("each generation has its Init", seen, INIT + invocation + ["start", "runtimeDone:timeout",
                                                                              "report:timeout"]
                   + INIT + ["start", "runtimeDone:failure", "report:failure"] + INIT + invocation)
        failed = [event["record"] for event in events(up) if event["type"] == "platform.report"][2]
        self.check("the exit's type", failed["errorType"], "Runtime.ExitError")
        self.check("each invocation is told the extension", noted(up, "x", "next"),
                   ["INVOKE", "INVOKE", "SHUTDOWN", "INVOKE", "SHUTDOWN", "INVOKE"])
        self.check("it ends", up.end(), (0, []))

    def test_a_failed_init_is_told_with_what_it_printed(self):
        app = 'import time\ntime.sleep(0.3)\nprint("in vain")\nimport missing_module\n'
        up = Up(functions=[function({"x": probe()})], files={"probe": PROBE}, app=app)
        self.check("the Init fails", up.until("Init failed Runtime.ImportModuleError", 60), True)
        until(lambda: any(event["type"] == "platform.initReport" for event in events(up)), 10)
        found = {event["type"]: event["record"] for event in events(up)}
        self.check("its runtime's part", (found["platform.initRuntimeDone"]["status"],
                                          found["platform.initRuntimeDone"].get("errorType")),
                   ("error", "Runtime.ImportModuleError"))
        self.check("the whole of it", (found["platform.initReport"]["status"],
                                       found["platform.initReport"]["errorType"]),
                   ("error", "Runtime.ImportModuleError"))
        lines = [event["record"] for event in events(up) if event["type"] == "function"]
        self.check("what it printed", "in vain" in lines, True)
        self.check("it ends", up.end(), (0, []))

    def test_the_Logs_API_has_its_own_words(self):
        up = self.started({"x": probe(LOGS, subscription(schema="2021-03-18")),
                           "y": probe(LOGS, {"types": ["platform", "extension"]}, protocol="TCP")}, timeout=1)
        self.check("an invocation", up.invoke(lines=["line"])[0], 1)
        self.check("an exit", up.invoke(do="exit")[0], "Runtime.ExitError")
        until(lambda: types(events(up)).count("report") >= 2 and types(events(up, "y")).count("report") >= 2, 10)
        first = [kind for kind in types(platform(events(up))) if kind not in ("extension", "logsSubscription")][:9]
        self.check("in the Logs API's words", first, ["start", "runtimeDone:success", "end", "report",
                                                      "start", "fault", "runtimeDone:failure", "end", "report"])
        fault = next(event for event in events(up) if event["type"] == "platform.fault")
        self.check("a fault", re.fullmatch(r"RequestId: \S{36} Process exited before completing request",
                                           fault["record"]) is not
                   None, True)
        self.check("the first schema has no runtimeDone", [kind for kind in types(events(up, "y")) if "Done" in kind],
                   [])
        self.check("lines", [event["record"] for event in events(up) if event["type"] == "function"], ["line"])
        report = next(event for event in events(up) if event["type"] == "platform.report")["record"]
        self.check("the members of a report", (sorted(report), sorted(report["metrics"])),
                   (["metrics", "requestId"], ["billedDurationMs", "durationMs", "initDurationMs", "maxMemoryUsedMB",
                                               "memorySizeMB"]))
        self.check("it ends", up.end(), (0, []))

    def test_lines_in_JSON_are_objects_but_for_the_first_schema(self):
        line = json.dumps({"level": "INFO", "message": "hi"})
        up = self.started({"x": probe(), "y": probe(body=subscription(["function"], "2022-07-01"))},
                          variables={"AWS_LAMBDA_LOG_FORMAT": "JSON"})
        self.check("an invocation", up.invoke(lines=[line, "plain", "{broken"])[0], 1)
        until(lambda: len([event for event in events(up) if event["type"] == "function"]) == 3, 10)
        until(lambda: len(events(up, "y")) == 3, 10)
        self.check("lines in JSON are objects", [event["record"] for event in events(up)
                                                 if event["type"] == "function"],
                   [json.loads(line), "plain", "{broken"])
        self.check("but for the first schema", [event["record"] for event in events(up, "y")],
                   [line, "plain", "{broken"])
        self.check("one that wants functions alone gets no more", {event["type"] for event in events(up, "y")},
                   {"function"})
        self.check("it ends", up.end(), (0, []))

    def test_lines_of_extensions_come_to_who_subscribed(self):
        up = self.started({"x": probe(body=subscription(["extension"])), "y": {"events": ["INVOKE"],
                                                                               "prints": "I hear"}})
        self.check("an invocation", up.invoke(lines=["of the function"])[0], 1)
        until(lambda: events(up), 10)
        self.check("an extension's lines", [(event["type"], event["record"]) for event in events(up)],
                   [("extension", "I hear INVOKE")])
        self.check("it ends", up.end(), (0, []))

    def test_wrong_subscriptions_are_refused_and_the_right_one_is_served(self):
        right = json.dumps({**subscription(), "destination": {"protocol": "TCP", "port": 4242}})
        up = self.started({"x": probe(early=[[TELEMETRY, right, {}]], late=[[TELEMETRY, right, {}], [LOGS, right, {}]],
                                      wrong=[[TELEMETRY, "{", {}], [TELEMETRY, 300_000, {}],
                                             [TELEMETRY, right.replace("4242", "9001"), {}],
                                             [LOGS, right.replace("2022-12-13", "2020-08-15"), {}],
                                             [TELEMETRY, right, {"Origin": "https://example.com"}],
                                             [TELEMETRY, right, {"Lambda-Extension-Identifier": "x"}],
                                             ["/2022-07-01/other", right, {}]], events=["INVOKE", "SHUTDOWN"])})
        self.check("an invocation", up.invoke()[0], 1)
        until(lambda: len(noted(up, "x", "late")) == 2, 10)

        def of(kind):
            return [(status, json.loads(text)["errorType"]) for status, text in noted(up, "x", kind)]
        self.check("before registration", of("early"), [(403, "Extension.UnknownIdentifier")])
        self.check("wrong ones", of("wrong"),
                   [(400, "ValidationError"), (413, "RequestEntityTooLarge"), (400, "ValidationError"),
                    (400, "ValidationError"),
                    (403, "AccessDenied"), (403, "Extension.UnknownIdentifier"), (404, "NotFound")])
        self.check("after Init", of("late"), [(403, "Telemetry.SubscriptionClosed"), (403, "Logs.SubscriptionClosed")])
        until(lambda: "report:success" in types(events(up)), 10)
        self.check("the right one is served all the same", types(platform(events(up)))[-3:],
                   ["start", "runtimeDone:success", "report:success"])
        self.check("it ends", up.end(), (0, []))

    def test_bad_receivers_cost_no_caller_anything(self):
        """What they do costs no caller anything, and those that come to themselves lose nothing."""
        wrongs = {"hangs": {"hangs": 1}, "garbage": {"garbage": 1}, "away": {"is_down": 600}}
        up = self.started({name: probe(**settings) for name, settings in wrongs.items()}, timeout=5)
        begun = time.monotonic()
        self.check("30 invocations", [up.invoke(lines=[str(number)])[0] for number in range(30)], [1] * 30)
        self.check("take no longer than without receivers", time.monotonic() - begun < 10, True)
        self.check("what is not taken is told", (up.has("is not HTTP/1.1"), up.has("Connect call failed")),
                   (True, True))
        begun = time.monotonic()
        status = up.end()
        self.check("it ends, and in time", (status, time.monotonic() - begun < 8), ((0, []), True))
        self.check("what was lost is told", [up.count(f"{name} did not take \\d+ events") for name in wrongs],
                   [1, 1, 1])

    def test_receivers_that_mend_lose_nothing(self):
        wrongs = {"refuses": {"refuses": 4}, "late": {"is_down": 2}}
        up = self.started({name: probe(**settings) for name, settings in wrongs.items()}, timeout=5)
        self.check("30 invocations", [up.invoke(lines=[str(number)])[0] for number in range(30)], [1] * 30)
        wanted = [str(number) for number in range(30)]
        for name in wrongs:
            until(lambda: types(events(up, name)).count("report:success") == 30, 30)
            lines = [event["record"] for event in events(up, name) if event["type"] == "function"]
            self.check(f"the one that {name} has each line once, in order", lines, wanted)
            self.check(f"and each report ({name})", types(events(up, name)).count("report:success"), 30)
        self.check("several refusals in a row are told once", up.count("is not taken: it answers 500"), 1)
        self.check("it ends", up.end(), (0, []))
        self.check("and nothing was lost", up.has("did not take"), False)

    def test_what_is_buffered_comes_before_the_shutdown(self):
        """What is buffered for half a minute comes before the shutdown."""
        slow = subscription(timeoutMs=30_000)
        up = self.started({"x": probe(body=slow), "y": probe(body=slow, protocol="TCP")})
        self.check("an invocation", up.invoke(lines=["last"])[0], 1)
        time.sleep(0.5)
        self.check("nothing has come", (events(up), events(up, "y")), ([], []))
        found = {}

        def keep():
            for name in "xy":
                with open(os.path.join(up.at, f"{name}.jsonl")) as file:
                    found[name] = [json.loads(line) for line in file]
        up.process.send_signal(15)
        until(lambda: up.process.poll() is not None or keep(), 20)
        keep()
        up.end(None)
        for name in "xy":
            kinds = [kind for kind, _ in found.get(name, [])]
            seen = [value["type"] for kind, value in found.get(name, []) if kind == "event"]
            self.check(f"all of it comes ({name})", ("platform.report" in seen, "function" in seen), (True, True))
            if "next" in kinds:
                self.check(f"before the extension hears of its end ({name})", kinds.index("next") > max(
                    at for at, kind in enumerate(kinds) if kind == "event"), True)

    def test_an_extension_that_ignores_its_shutdown_does_not_hold_up_the_end(self):
        """An extension that does not end, and a receiver that takes nothing: the end of tools/up is in order."""
        up = self.started({"x": probe(ignores=True), "y": probe(hangs=1)})
        self.check("an invocation", up.invoke(lines=["last"])[0], 1)
        begun = time.monotonic()
        status = up.end()
        self.check("it ends, in time", (status, time.monotonic() - begun < 10), ((0, []), True))
        self.check("and says nothing of its own faults", [line for line in up.lines if "front:" in line
                                                          or "destroyed" in line],
                   [])

    def test_what_came_and_what_was_dropped_is_all_that_was_made_for_receivers_that_stall(self):
        """A load with receivers that stall: what came and what was dropped are all that was made."""
        invocations, lines = 30, 2000
        settings = {"x": probe(stalls="go", after=3), "y": probe(protocol="TCP", stalls="go", after=4000), "z": probe()}
        up = self.started(settings, timeout=30)
        begun = time.monotonic()
        self.check("a load of invocations", {up.invoke(count=lines)[0] for _ in range(invocations)}, {1})
        took = time.monotonic() - begun
        up.write("go", "")
        made = MADE_IN_INIT + 2 * 2 + invocations * (MADE_BY_INVOCATION + lines)  # (two more extensions)
        for name in "xyz":
            until(lambda: sum(summed(up, name)[:2]) >= made, 60)
            came, dropped, size = summed(up, name)
            self.check(f"{name}: {came} came, {dropped} were dropped, {made} were made", came + dropped, made)
            self.check(f"{name}: bytes were dropped if events were", size > 0, dropped > 0)
            records = [int(event["record"]) for event in events(up, name) if event["type"] == "function"]
            steps = sum(1 for one, two in zip(records, records[1:]) if two <= one)
            self.check(f"{name}: what came is in order", steps <= invocations, True)
        self.check("events were dropped by the one over HTTP that stalls", summed(up, "x")[1] > 0, True)
        print(f"     {invocations} invocations of {lines} lines took {took:.1f} s")
        self.check("it ends", up.end(), (0, []))

    def test_without_telemetry_there_is_no_proxy(self):
        """Without telemetry the processes have the environment's own port."""
        up = Up(functions=[{"name": "f", "runtime": "python", "handler": "app.run"}], app=ADDRESS)
        up.until("[up] ready")
        port = json.loads(up.history().splitlines()[1])["functions"][0]["ports"][0]
        self.check("without telemetry there is no proxy", up.invoke()[0], f"127.0.0.1:{port}")
        self.check("it ends", up.end(), (0, []))
        up = self.started({"x": probe()}, app=ADDRESS)
        port = json.loads(up.history().splitlines()[1])["functions"][0]["ports"][0]
        self.check("with it there is one", up.invoke()[0] != f"127.0.0.1:{port}", True)
        self.check("it ends", up.end(), (0, []))

    def test_a_process_that_leaks_connections_is_served(self):
        up = self.started({"x": probe()}, app=LEAKING, timeout=20)
        for sends in ("", "GET /2018-06-01/runtime/invocation/next HTTP/1.1\r\n", "PUT /2022-07-01/telemetry HT",
                      "\0\xff"):
            self.check(f"a process that leaks 100 connections, each with {sends[:12]!r}", isinstance(
                up.invoke(leak=100, sends=sends)[0], int), True)
        self.check("is served", up.invoke()[0], 400)
        until(lambda: types(events(up)).count("report:success") == 5, 10)
        self.check("its telemetry too", types(events(up)).count("report:success"), 5)
        self.check("it ends", up.end(), (0, []))

    def test_connections_that_end_keep_no_descriptor(self):
        """Of connections that their processes have closed nothing is kept, as of those of curl."""
        up = self.started({"x": probe()}, app=ADDRESS)
        proxy = int(up.invoke()[0].rpartition(":")[2])
        descriptors = lambda: len(os.listdir(f"/proc/{up.process.pid}/fd"))
        before = descriptors()
        for _ in range(40):
            self.assertEqual(ask(proxy, "GET", "/")[0], 404)
        until(lambda: descriptors() < before + 10, 20)
        self.check("descriptors return after 40 connections", descriptors() < before + 10, shown=descriptors())
        self.check("it ends", up.end(), (0, []))

    def test_odd_requests_get_the_services_own_answers(self):
        """The answers to odd requests are those of the environment's own port."""
        up = self.started({"x": probe()}, app=ADDRESS)
        port = json.loads(up.history().splitlines()[1])["functions"][0]["ports"][0]
        proxy = int(up.invoke()[0].rpartition(":")[2])
        requests: Tuple[Tuple[str, str, Union[None, str, bytes], Dict[str, str]], ...] = (
            ("GET", "/", None, {}), ("GET", "/2022-07-01/telemetry", None, {}), ("POST", TELEMETRY, "{}", {}),
            ("DELETE", "/2018-06-01/runtime/invocation/next", None, {}),
            ("GET", "/x", None, {"Origin": "http://a"}),
            ("POST", "/2018-06-01/runtime/invocation/x/response", "1", {}),
            ("POST", "/2018-06-01/runtime/invocation/x/response", b"1" * (7 << 20), {}),
            ("POST", "/2020-01-01/extension/register", "{}", {"Lambda-Extension-Name": "late"}),
            ("GET", "/2020-01-01/extension/event/next", None, {"Host": "example.com"}))
        for method, path, body, headers in requests:
            seen = []
            for each in (port, proxy):
                connection = http.client.HTTPConnection("127.0.0.1", each, timeout=20)
                try:
                    connection.request(method, path, body, headers)
                except (BrokenPipeError, ConnectionResetError):
                    pass  # (it has been answered already)
                answer = connection.getresponse()
                seen.append((answer.status, answer.getheaders(), answer.read()))
                connection.close()
            self.check(f"{method} {path[:50]} {len(body or '')} has the service's answer", seen[1], seen[0])
        self.check("it ends", up.end(), (0, []))

    def test_the_example_extension_prints_what_its_page_says(self):
        """The extension of examples/, as its own words and docs/telemetry.md say."""
        path = os.path.join(ROOT, "examples", "telemetry.py")
        with open(path) as file:
            members = json.loads(re.findall(r'\{"functions".*?\}\]\}', file.read(), re.S)[0])["functions"][0]
        up = Up(functions=[{**members, "handler": "app.run", "extensions": {"telemetry.py": path}}], app=APP)
        self.check("it is ready", up.until("[up] ready"), True)
        self.check("an invocation", up.invoke("greet", lines=["hello"])[0], 1)
        for text in ("[greet/1 telemetry.py] platform.initStart {", "platform.start {", 'function "hello"',
                     "platform.report {"):
            self.check(f"the example prints {text}", up.until(text, 20), True)
        self.check("it ends", up.end(), (0, []))

    def test_mistakes_in_UP_json_are_refused(self):
        for name, (members, wanted) in MISTAKES.items():
            up = Up(functions=[{"name": "f", **members}])
            status, _ = up.end(None)
            self.check(f"{name} is refused", (status, up.lines), (2, [f"up: up.json: function f: {wanted}"]))
