"""Checks what lambda_local rerun makes of a history, without processes: which invocations are sent and when, and how
outputs are compared and reported. The program is LAMBDA_LOCAL_PROGRAM, else ./lambda_local."""
import contextlib
import http.server
import threading
import time
from typing import List, Tuple

from lambda_local.rerun import compare, play, record, report
from tests.library.cases import Case
from tests.library.rerun_kit import fault_of
from tests.library.timelines import PROGRAM

WHOLE = ('form 2\n{"account":"123456789012","accountLimit":1000,'
         '"functions":[{"extensions":[],"handler":"index.handler","name":"f","ports":[9001,9002],"timeout":3}],'
         '"invokePort":9000,"leastRemainder":100,"maxEntries":1000000,"region":"us-east-2","salt":7}\n')
REQUEST = "00000000-0000-8007-8001-00000000000"
# Two at once, a throttle between them, one that fails, one that has no answer: worked by docs/formats.md.
HISTORY = WHOLE + f"""0 next 1
0 next 2
10 invoke f q =Root=1 ={{"n":1}}
# 2 0 deliver {REQUEST}1 3010 ={{"n":1}}
20 invoke f - - =2
# 3 1 deliver {REQUEST}2 3020 =2
25 invoke f - - =3
# 4 4 throttled LocalEnvironmentLimitExceeded
30 response 1 1 =%22one%22
# 5 2 output ="one"
# 5 5 accepted
40 next 1
50 failure 2 2 ={{"errorType":"E"}}
# 7 3 error ={{"errorType":"E"}}
# 7 7 accepted
60 invoke f - - =4
# 8 6 deliver {REQUEST}4 3060 =4
"""


class FakeServer(http.server.ThreadingHTTPServer):
    """Keeps what comes, and counts what it works at: now, and at most."""
    daemon_threads = True

    def __init__(self):
        super().__init__(("127.0.0.1", 0), Fake)
        self.lock = threading.Lock()
        self.came: List[Tuple[str, str, str]] = []
        self.now = self.most = 0


class Fake(http.server.BaseHTTPRequestHandler):
    """A service that answers each payload after a while, and is asked twice for one that it throttles."""
    protocol_version = "HTTP/1.1"
    server: FakeServer

    def do_POST(self):
        payload = self.rfile.read(int(self.headers["Content-Length"])).decode()
        server = self.server
        with server.lock:
            server.came.append((payload, self.path, self.headers["X-Amzn-Trace-Id"]))
            server.now += 1
            server.most = max(server.most, server.now)
        if payload == "gone":
            self.close_connection = True
            return
        time.sleep(0.3)
        with server.lock:
            server.now -= 1
        is_throttled = payload == "throttled" and len([each for each in server.came if each[0] == payload]) < 2
        self.send_response(429 if is_throttled else 200)
        self.send_header("Content-Length", str(len(payload)))
        self.end_headers()
        self.wfile.write(payload.encode())

    def log_message(self, *_):
        pass


@contextlib.contextmanager
def fake():
    server = FakeServer()
    threading.Thread(target=server.serve_forever, args=(0.05,)).start()
    try:
        yield server
    finally:
        server.shutdown()
        server.server_close()


def made(ticket, payload, end, **more):
    return record.Invocation(ticket, "f", ticket, more.get("qualifier", False), more.get("trace"), payload, "output",
                             b"", end)


class Rerun(Case):
    def test_invocations_are_read_of_a_history(self):
        recording = record.parsed(HISTORY, "h", PROGRAM)
        seen = [(each.ticket, each.function, each.place, each.qualifier, each.trace, each.payload, each.kind, each.body,
                 each.end)
                for each in recording.invocations]
        self.check("the invocations of a history", seen, [
            (2, "f", 1, True, "Root=1", b'{"n":1}', "output", b'"one"', 5),
            (3, "f", 2, False, None, b"2", "error", b'{"errorType":"E"}', 7),
            (4, "f", 3, False, None, b"3", "throttled", None, 4), (8, "f", 4, False, None, b"4", "open", None, None)])
        self.check("its salt and timeouts", (recording.salt, recording.timeouts), (7, {"f": 3}))
        self.check("those that reached a function", [each.was_served for each in recording.invocations],
                   [True, True, False, False])
        self.check("the others in words", report.left_out(recording.invocations), "1 throttled, 1 without an answer")
        found = record.Identified(recording.invocations).find("f", REQUEST + "2")
        self.check("by a request identifier", found and found.ticket, 3)

    def test_what_is_no_history_is_told(self):
        for name, text, words in (
            ("another file", "hello\n", "2: h: configuration: NotJson"),
            ("nothing", "", "2: h: configuration: NotJson"),
            ("a script", 'form 2\n{"account":"123456789012","region":"us-east-2","functions":[]}\n',
             "2: h: this is not a history"),
            ("a line that is none", HISTORY + "70 jump\n",
             "2: h: line 20 is not a call: `70 jump`"),
            ("one that is cut", HISTORY[:-1], "2: h: line 19 has no end: the history is cut off"),
            ("one with a gap", HISTORY.replace("# 5 2 output", "# 6 2 output"),
             '2: h: line 12: the history has `6 2 output ="one"`, but the replay answers `5 2 output ="one"`'),
        ):
            said = fault_of(record.parsed, text, "h", PROGRAM)
            self.check(f"no history: {name}", said if words not in said else words, words)
        self.check("no file", fault_of(record.read, "/nowhere/h", PROGRAM),
                   "2: /nowhere/h: No such file or directory: name a file with a history")

    def test_outputs_are_compared_member_by_member(self):
        def told(then, now, *ignored):
            return [str(each) for each in compare.differences(then, now,
                                                              [compare.pointer_of(text) for text in ignored])]
        self.check("the same", told(b'{"a":1,"b":[1,2]}', b' { "b" : [1.0, 2], "a": 1 }'), [])
        self.check("a member", told(b'{"a":{"b":1}}', b'{"a":{"b":"1"}}'), ['/a/b: 1 -> "1"'])
        self.check("true is not 1", told(b"[true]", b"[1]"), ["/0: true -> 1"])
        self.check("null is not absent", told(b'{"a":null}', b"{}"), ["/a: only then: null"])
        self.check("more and less", told(b'{"a":1,"b":[1]}', b'{"c":2,"b":[1,{"x":2}]}'),
                   ["/a: only then: 1", '/b/1: only now: {"x": 2}', "/c: only now: 2"])
        self.check("another type", told(b'{"a":1}', b"[1]"), ['the whole: {"a": 1} -> [1]'])
        self.check("names with signs of a pointer", told(b'{"a/b":{"m~n":1}}', b'{"a/b":{"m~n":2}}'),
                   ["/a~1b/m~0n: 1 -> 2"])
        self.check("no JSON", (told(b"\xff", b"\xff"), told(b"one", b"two")), ([], ["the whole: one -> two"]))
        self.check("a long value", len(told(b'"' + b"x" * 999 + b'"', b"1")[0]) < 150)
        self.check("equal bytes that are no value", told(b"[NaN]", b"[NaN]"), [])
        self.check("beside a value that differs too", told(b"[NaN,1]", b"[NaN,2]"), ["/1: 1 -> 2"])
        self.check("numbers beyond binary64", told(b"[1e400]", b"[1e401]"), ['/0: "1E+400" -> "1E+401"'])
        self.check("a name twice", (told(b'{"a":1,"a":2}', b'{"a":1,"a":2}'), told(b'{"a":1,"a":2}', b'{"a":3,"a":2}')),
                   ([], ['the whole: {"a":1,"a":2} -> {"a":3,"a":2}']))
        self.check("half of a pair", told(b'"\\ud8001"', b'"\\ud8002"'), ['the whole: "\\ud8001" -> "\\ud8002"'])
        self.check("bytes that a terminal would obey", told(b"\x1b[31m", b"\x07"), ["the whole: \\x1b[31m -> \\x07"])

    def test_long_and_deep_outputs_are_compared(self):
        def told(then, now, *ignored):
            return [str(each) for each in compare.differences(then, now,
                                                              [compare.pointer_of(text) for text in ignored])]
        long = b"x" * 500
        self.check("long ones that differ at the end", told(long + b"1", long + b"2"),
                   [f"the whole: from letter 480 on, ..{'x' * 20}1 -> ..{'x' * 20}2"])
        self.check("the member named *", (told(b'{"*":1,"a":1}', b'{"*":2,"a":2}', "/~*"), told(b'{"*":1}', b'{"*":2}',
                                                                                                "/*")),
                   (["/a: 1 -> 2"], []))
        self.check("an escape that is none", fault_of(compare.pointer_of, "/a~2"),
                   "2: --ignore /a~2: ~ is written ~0, / within a name ~1, and the member * alone ~*")
        deep = b"[" * 120 + b"1" + b"]" * 120
        self.check("deep ones", told(deep, deep.replace(b"1", b"2")), ["/0" * 120 + ": 1 -> 2"])

    def test_ignored_members_are_left_out(self):
        def told(then, now, *ignored):
            return [str(each) for each in compare.differences(then, now,
                                                              [compare.pointer_of(text) for text in ignored])]
        then, now = (b'{"time":1,"items":[{"id":1,"n":1},{"id":2,"n":2}],"a/b":1}',
                     b'{"time":2,"items":[{"id":3,"n":1},{"id":4,"n":3}],"a/b":2}')
        self.check("ignored members", told(then, now, "/time", "/items/*/id", "/a~1b"), ["/items/1/n: 2 -> 3"])
        self.check("all below an ignored one", told(then, now, "/time", "/items", "/*"), [])
        self.check("an ignored member that is absent", told(b'{"time":1}', b"{}", "/time"), [])
        self.check("a pointer that is none", fault_of(compare.pointer_of, "time"),
                   "2: --ignore time: a JSON pointer begins with /, such as /time or /items/*/id")

    def test_errors_are_equal_by_type_and_message(self):
        def told(then, now, exact=False):
            invocation = made(1, b"1", 2)._replace(kind="error", body=then)
            return report.judged(invocation, "error", now, 0.1, [], exact).lines
        then = b'{"errorType":"E","errorMessage":"m","requestId":"1","stackTrace":["a"]}'
        now = b'{"errorType":"E","errorMessage":"m","requestId":"2","stackTrace":["b"]}'
        self.check("errors of the same type and message are equal", told(then, now), [])
        self.check("unless they are to be exact", told(then, now, True), ['/requestId: "1" -> "2"',
                                                                          '/stackTrace/0: "a" -> "b"'])
        self.check("those of another message are not", told(then, now.replace(b'"m"', b'"n"')),
                   ['/errorMessage: "m" -> "n"'])

    def test_the_report_has_a_verdict_for_each(self):
        recording = record.parsed(HISTORY, "h", PROGRAM)
        good, bad = recording.invocations[:2]
        results = [report.judged(good, "output", b'"one"', 0.1, []), report.judged(good, "output", b'"two"', 0.1, []),
                   report.judged(good, "timeout", None, 0.1, []), report.judged(bad, "output", b"5", 0.1, []),
                   report.judged(bad, "error", b'{"errorType":"E"}', 0.1, []),
                   report.judged(bad, "error", b'{"errorType":"F"}', 0.1, []), report.judged(bad, "timeout", None, 0.1,
                                                                                             [])]
        self.check("the verdicts", [result.verdict for result in results],
                   ["equal", "changed", "failed now", "failed then", "equal", "changed", "changed"])
        self.check("the report", report.text_of(results, recording), [
            'changed: call 2, f: the whole: "one" -> "two"', '  its event: {"n":1}', "failed now: call 2, f: timeout",
            '  its event: {"n":1}', 'failed then: call 3, f: then error {"errorType":"E"}, now output 5',
            "  its event: 2",
            'changed: call 3, f: /errorType: "E" -> "F"', "  its event: 2",
            'changed: call 3, f: error {"errorType":"E"} -> timeout', "  its event: 2",
            "7 invocations: 2 equal, 3 changed, 1 failed now, 1 failed then; not sent: 1 throttled, 1 without an "
            "answer"])

    def test_invocations_are_played_in_order_and_at_once_as_recorded(self):
        # a and b were in flight together, c came after a was answered, d after all
        recorded = [made(1, b"a", 4, qualifier=True, trace="Root=1"), made(2, b"b", 7), made(5, b"c", 6),
                    made(9, b"d", 10)]
        for one_by_one, most in ((False, 2), (True, 1)):
            with fake() as server:
                sent = play.play(server.server_address[1], recorded, {"f": 3}, one_by_one)
                self.check(f"{'one by one' if one_by_one else 'as recorded'}: order, and most at once",
                           ([each.body for each in sent], sorted(payload for payload, _, _ in server.came),
                            server.most),
                           ([b"a", b"b", b"c", b"d"], ["a", "b", "c", "d"], most))
                self.check("the qualifier and the trace", [each[1:] for each in server.came if each[0] == "a"],
                           [("/2015-03-31/functions/f/invocations?Qualifier=$LATEST", "Root=1")])

    def test_a_throttle_is_tried_again_and_no_answer_is_told(self):
        with fake() as server:
            sent = play.play(server.server_address[1], [made(1, b"throttled", 2)], {})
            self.check("a throttle is tried again", (sent[0].status, len(server.came)), (200, 2))
            said = fault_of(play.play, server.server_address[1], [made(3, b"gone", 4)], {})
            self.check("no answer", said.startswith("2: the service does not answer call 3 of f: "), True)
