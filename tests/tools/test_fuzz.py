"""Gives each reader of the tools bytes that nobody would write: UP.json, reports of failures, histories and scripts,
templates, results of events, what functions print, HTTP (tests/library/http_fuzz.py), and what users give for a
template (tests/library/given_fuzz.py). A reader may refuse by its own fault, in words; nothing else may be raised, no
line may have a control character, and none may take long. What a failure is minimised to is kept in
tests/tools/fuzz.cases with its seed, and tried first from then on.

Variables: FUZZ_HOURS is for how long all parts together go on (a minute), FUZZ_SEED the first seed (the days since
1970; it is printed). Without hypothesis (Debian: python3-hypothesis) tests/library/strategies.py draws the inputs."""
import base64
import contextlib
import io
import json
import os
import tempfile
import time
from typing import List, Tuple

from lambda_local import from_template, outgoing, reasons, reports
from lambda_local.configuration import explained, mistakes
from lambda_local.from_template.messages import Fault as TemplateFault
from lambda_local.front.events import in_json
from lambda_local.front.handed import NotHanded, handed_of
from lambda_local.front.payload import Unmappable, reply_of
from lambda_local.history import comparison, reader, script, trace
from lambda_local.history.entries import Answer
from lambda_local.history.shapes import NotTrace
from lambda_local.http1 import request_head
from lambda_local.json_reader import NotJson, read_json
from lambda_local.life import Life
from lambda_local.service import Fault
from lambda_local.timeline.refused import with_refusals
from lambda_local.up import members, output
from tests import ROOT
from tests.library import given_fuzz, http_fuzz, identity_fuzz, strategies
from tests.library.cases import Case
from tests.library.given_fuzz import CONTROL, is_a_line
from tests.library.template_kit import up_of
from tests.library.traces import all_at_once, one_by_one, whole

try:
    from hypothesis import HealthCheck, Phase, given, seed, settings
    from hypothesis import strategies as some
    HAS_HYPOTHESIS = True
except ImportError:
    some = strategies  # type: ignore  # (a module of our own)
    HAS_HYPOTHESIS = False
HOURS = float(os.environ.get("FUZZ_HOURS", "0")) or 1 / 60
FIRST_SEED = int(os.environ.get("FUZZ_SEED") or time.time() // 86400)
CASES = os.path.join(ROOT, "tests", "tools", "fuzz.cases")
SHRINKING = 30.0  # seconds for making a failure small
LONGEST_SECONDS = 20.0  # of one input, on a machine that does much else
REQUEST = "00000000-0000-8000-8001-000000000001"
HANDED = b'{"id":7,"port":9100,"method":"POST","target":"/a/b?c=d","headers":[["host","a"],["x","y"]]}\n"body"'
HISTORY = (b'form 2\n{"account":"123456789012","accountLimit":1000,"functions":[{"extensions":["x"],"handler":"a.b",'
           b'"name":"f","ports":[1],"timeout":3}],"invokePort":9,"leastRemainder":100,"maxEntries":1000,'
           b'"region":"us-east-1","salt":0}\n1 register 1 =x is a\n'
           b'# 0 0 registered 00000000-0000-8000-a001-000000000001\n2 next 1\n3 invoke f - =Root=1 ={}\n'
           b'# 2 1 deliver ' + REQUEST.encode() + b' 4000 ={}\n9 response 1 1 =1\n# 3 2 output =1\n# 3 3 accepted\n'
           b'## 4000 expire 1\n4001 stop\n# 5 5 accepted\n')
TRACE = (b'{"answers":[{"answer":"registered","extension":"00000000-0000-8000-a001-000000000001","ticket":0}],'
         b'"call":{"account":true,"environment":1,"invoke":true,"kind":"register","name":"x","shutdown":true},'
         b'"moment":1,"phases":[{"deadline":10001,"environment":1,"phase":"starting"}],"released":[],'
         b'"ticket":0}\n'
         b'{"answers":[],"call":{"environment":1,"extension":1,"kind":"ext-next"},"moment":1,"phases":[],'
         b'"released":[],"ticket":1}\n'
         b'{"answers":[],"call":{"environment":1,"kind":"next"},"moment":2,"phases":[{"environment":1,'
         b'"phase":"idle"}],"released":[],"ticket":2}\n'
         b'{"answers":[{"answer":"tell","deadline":3003,"event":"00000000-0000-8000-b001-000000000001",'
         b'"invoke":3,"request":"REQ","ticket":1},{"answer":"deliver","body":"{}","deadline":3003,"invoke":3,'
         b'"request":"REQ","ticket":2}],"call":{"body":"{}","function":"f","kind":"invoke","qualified":false,'
         b'"trace":"Root=1"},"charged":3,"moment":3,"phases":[{"deadline":3003,"environment":1,"invoke":3,'
         b'"phase":"busy"}],"place":1,"released":[],"request":"REQ","ticket":3}\n'
         b'{"answers":[{"answer":"output","bodyBase64":"/w==","source":4,"ticket":3},{"answer":"accepted",'
         b'"ticket":4}],"call":{"bodyBase64":"/w==","environment":1,"id":1,"kind":"response"},"moment":9,'
         b'"phases":[],"released":[],"ticket":4}\n'
         b'{"answers":[],"call":{"environment":1,"kind":"expire"},"expires":1,"moment":4001,'
         b'"phases":[{"deadline":6001,"environment":1,"phase":"closing","reason":"TIMEOUT"}],"released":[3],'
         b'"ticket":5}\n'
         b'{"answers":[{"answer":"accepted","ticket":6}],"call":{"kind":"stop"},"moment":4001,"phases":[],'
         b'"released":[],"ticket":6}\n').replace(b"REQ", REQUEST.encode())
UP = (b'{"functions":[{"name":"f","command":["true"],"environments":2,"timeout":5,"variables":{"A":"b"},"extensions":'
      b'{"x":"true"},"url":{"cors":{"allowOrigins":["*"]}}}],"routes":{"GET /a/{id}":"f"},"asynchronous":'
      b'{"retries":1,"onFailure":"f"},"account":"123456789012","salt":7}')
TEMPLATE = (b"Parameters: {P: {Type: String, Default: x}}\nResources:\n  F: &f\n    Type: AWS::Serverless::Function\n"
            b"    Properties: {Handler: a.b, Runtime: python3.12, Environment: {Variables: {A: !Sub '${P}-${F.Arn}', "
            b"B: !Join ['', [a, !Ref P]]}}, Events: {E: {Type: HttpApi, Properties: {Path: /a, Method: get}}}}\n"
            b"  G:\n    <<: *f\n")
REPORT = (b'{"errorType":"E","errorMessage":"m","stackTrace":["  File \\"app.py\\", line 2, in run\\n"],"trace":'
          b'["at f (a.js:1:2)",{"path":"m.go","line":3}]}')
RESULT = (b'{"statusCode":200,"headers":{"a":"b"},"multiValueHeaders":{"c":["d"]},"cookies":["e=f"],"body":"x",'
          b'"isBase64Encoded":false}')


def of_up(data):
    with contextlib.suppress(Fault):
        members.load(written("up.json", data))
    with contextlib.suppress(NotJson):
        whole = read_json(data)
        for mistake in mistakes(whole):
            is_a_line(mistake)
        if isinstance(whole, dict) and not list(mistakes(whole)):
            for name in ("BadTimeout", "BadPort", "DuplicatePort", "BadExtension", "RemainderTooSmall"):
                is_a_line(explained(name, whole, "functions[0]"))


def of_reports(data):
    report = reports.Report(data, "/at")
    for line in (str(report), report.place, *report.lines):
        is_a_line(line)
    json.dumps(report.members)
    assert outgoing.HEADER_VALUE.fullmatch(reports.kind_in(data, "X"))


def of_histories(data):
    given = script.Script("a history", data)
    with contextlib.suppress(Fault):
        given.leave_out_cut_line()
        list(comparison.answers_of(given))
        is_a_line(reasons.of_call(3, given.line))
        list(with_refusals(given, ()))
    given.close()


def of_traces(data):
    """As that of a service comes, in pieces, and what follows it."""
    life = Life(json.loads(HISTORY.split(b"\n")[1]))
    pieces = (data[at:at + 70] for at in range(0, len(data), 70))
    with contextlib.suppress(NotTrace):
        for entry in reader.entries_of(trace.lines_in((*pieces, b"\n")), len(life.environments)):
            assert isinstance(entry.own, (Answer, type(None)))
            for event in life.take(entry):
                str(event)
    lines, count = data.split(b"\n"), len(life.environments)
    entries, fault = one_by_one(lines, count)
    assert all_at_once(lines, count) == (entries, fault)
    taken, end = all_at_once(lines, count, in_short=True)
    assert (list(map(whole, taken, entries)), len(taken), end) == (entries, len(entries), fault)


def of_templates(data):
    with contextlib.suppress(TemplateFault), contextlib.redirect_stderr(io.StringIO()) as said:
        up_of(written("template.yaml", data))
    for line in said.getvalue().splitlines():
        is_a_line(line)


def of_results(data):
    """What a function gives for an HTTP request, and what is recorded of an event."""
    read_json(in_json(data), deepest=10 ** 9)
    with contextlib.suppress(Unmappable):
        reply_of(data)


def of_handed(data):
    """What a service hands over: what is read of it can be written as a head, and its body is what it ends with."""
    with contextlib.suppress(NotHanded):
        request = handed_of(data).request
        request_head(request.method, request.target or "*", request.headers)
        assert data.endswith(b"\n" + request.body(len(data)))


def of_output(data):
    lines: List[str] = []
    splitter = output.Splitter(lines.append)
    for at in range(0, len(data), 7):
        splitter.feed(data[at:at + 7])
    splitter.feed(b"")
    for line in lines:
        shown = outgoing.printable_output(line)
        assert not CONTROL.search(outgoing.COLOUR.sub("", shown)), shown
        assert len(line) <= output.LONGEST_LINE + 7


FOLDER = tempfile.TemporaryDirectory()


def written(name, data):
    path = os.path.join(FOLDER.name, name)
    with open(path, "wb") as file:
        file.write(data)
    return path


assert from_template.main is not None


def fault_of(reader, data):
    """What is wrong with a reader over these bytes; nothing if it holds."""
    begun = time.monotonic()
    try:
        reader(data)
    except (Exception, SystemExit) as fault:
        return f"{type(fault).__name__}: {fault}"[:300]
    took = time.monotonic() - begun
    return f"takes {took:.0f} s" if took > LONGEST_SECONDS else ""


WORDS = [b"\0", b"\r\n", b"\n", b"\x1b[2J", b'"\\ud83d"', b"\xff", b"\xc2\x9b", b"\xe2\x80\xae", b"[" * 200,
         b'{"a":' * 150, b"9" * 30, b"9" * 5000, b"-1", b"1e999", b"NaN", b"null", b"true", b"[]", b"{}", b'""', b"%",
         b"%0d%0a", b"%zz", b"# ", b"## ", b" ", b"=", b"-", b"<<: *f", b"&a [*a]", b"*f", b"!Sub ", b"!Ref ", b"${",
         b"../", b"/" * 9, b"1.5", b'"name":', b'"ports":', b'"extensions":[5]', b"18446744073709551616", b"{", b"}",
         b"[", b"]", b",", b":", b'"']


def mutated(original, words=tuple(WORDS)):
    """The original with some of its bytes left out, doubled, or replaced by words that readers stumble over."""
    change = some.tuples(some.integers(0, len(original)), some.integers(0, 30),
                         some.one_of(some.sampled_from(words), some.binary(max_size=6)))

    def applied(changes):
        data = original
        for at, length, word in changes:
            at = min(at, len(data))
            data = data[:at] + word + data[at + length:]
        return data
    return some.lists(change, min_size=1, max_size=6).map(applied)


def value():
    """What JSON can say, also where a member of another type is expected."""
    leaf = some.one_of(some.none(), some.booleans(), some.integers(), some.floats(), some.text(max_size=8),
                       some.sampled_from(["f", "\0", "\ud83d", "\x1b[2J", "a\r\nb: c", "=", "é", "a" * 5000]))
    return some.recursive(leaf, lambda inner: some.one_of(
        some.lists(inner, max_size=4), some.dictionaries(some.text(max_size=5), inner, max_size=4)), max_leaves=12)


def documents_of(original):
    """What a JSON document says, or each of several that are lines."""
    try:
        return [json.loads(original)]
    except json.JSONDecodeError:
        return [json.loads(line) for line in original.splitlines()]


def replaced(original):
    """A JSON document, or lines of them, in which one of the values is another one."""
    paths = [path for path in paths_of(documents_of(original)) if path]

    def applied(choice):
        path, new = choice
        copy = documents_of(original)
        inner = copy
        for step in path[:-1]:
            inner = inner[step]
        inner[path[-1]] = new
        return b"".join(json.dumps(document).encode() + b"\n" for document in copy)
    return some.tuples(some.sampled_from(paths), value()).map(applied)


def paths_of(whole, path=()):
    yield path
    for step, inner in whole.items() if isinstance(whole, dict) else (
            enumerate(whole) if isinstance(whole, list) else ()):
        yield from paths_of(inner, (*path, step))


def inputs_of(original):
    """What a reader of such bytes is given."""
    kinds = [mutated(original), some.binary(max_size=200)]
    if original.startswith(b"{"):
        kinds += [replaced(original), replaced(original)]
    return some.one_of(kinds)


# Each part's reader, what it reads that is right, and what it is given.
PARTS = {name: (reader, original, inputs_of(original)) for name, reader, original in (
    ("up", of_up, UP), ("reports", of_reports, REPORT), ("histories", of_histories, HISTORY),
    ("traces", of_traces, TRACE), ("templates", of_templates, TEMPLATE), ("results", of_results, RESULT),
    ("handed", of_handed, HANDED), ("output", of_output, b"a\r\n\x1b[1mb"))}
PARTS.update(http_fuzz.parts(some, mutated))
PARTS.update(given_fuzz.parts(some, mutated, inputs_of))
PARTS.update(identity_fuzz.parts(of_templates, inputs_of))


def tried_with(number, reader, inputs, end):
    """Runs a round with this seed until the time is over. How many inputs it was, and the shortest that breaks the
    reader, with its fault."""
    if not HAS_HYPOTHESIS:
        return strategies.tried_with(number, lambda data: fault_of(reader, data), inputs, end, SHRINKING)
    tried = 0
    seen: List[Tuple[bytes, str]] = []

    @seed(number)
    @settings(max_examples=100, deadline=None, database=None, suppress_health_check=list(HealthCheck),
              phases=(Phase.generate, Phase.shrink), print_blob=False)
    @given(inputs)
    def round_of_inputs(data):
        nonlocal tried
        if time.monotonic() > (end + SHRINKING if seen else end):
            return
        tried += 1
        if fault := fault_of(reader, data):
            seen.append((data, fault))
            raise AssertionError(fault)
    try:
        round_of_inputs()
    except Exception:  # (also hypothesis' own, if the time was over while it shrank)
        if not seen:
            raise
    return tried, min(seen, key=lambda one: len(one[0]), default=None)


def cases():
    """Each case of the file: the part, and its bytes."""
    if os.path.exists(CASES):
        with open(CASES, encoding="ascii") as file:
            for line in file:
                if not line.startswith("#") and line.strip():
                    name, data = line.split()[:2]
                    yield name, base64.b64decode(data)


def kept(name):
    return [data for part, data in cases() if part == name]


def keep(name, data, why):
    if data not in kept(name):
        with open(CASES, "a", encoding="ascii") as file:
            file.write(f"{name} {base64.b64encode(data).decode()}  {ascii(why)[1:100]}\n")


class Fuzz(Case):
    """A test a reader."""

    def fuzz(self, name):
        """Tries what is right, the kept cases, and as many inputs as there is time for."""
        reader, right, inputs = PARTS[name]
        self.check(f"{name}: what is right is read", fault_of(reader, right), "")
        for data in kept(name):
            self.check(f"{name}, kept: {data[:60]!r}", fault_of(reader, data), "")
        tried, number, end = 0, FIRST_SEED, time.monotonic() + 3600 * HOURS / len(PARTS)
        while time.monotonic() < end:
            count, broken = tried_with(number, reader, inputs, end)
            tried += count
            if broken:
                data, fault = broken
                keep(name, data, f"seed {number}: {fault}")
                return self.check(f"{name}, seed {number}: {data[:200]!r}", fault, "")
            number += 1
        self.check(f"{name}: {tried} inputs, seeds {FIRST_SEED} to {number - 1}", "", "")

    def test_any_UP_json_is_read_or_refused(self):
        self.fuzz("up")

    def test_any_report_is_read_or_refused(self):
        self.fuzz("reports")

    def test_any_history_is_read_or_refused(self):
        self.fuzz("histories")

    def test_any_trace_is_read_or_refused(self):
        self.fuzz("traces")

    def test_any_template_is_read_or_refused(self):
        self.fuzz("templates")

    def test_any_result_is_read_or_refused(self):
        self.fuzz("results")

    def test_any_request_that_is_handed_over_is_read_or_refused(self):
        self.fuzz("handed")

    def test_any_output_is_divided_into_lines(self):
        self.fuzz("output")

    def test_any_request_is_read_whole_and_in_pieces(self):
        self.fuzz("requests")

    def test_any_response_is_read_whole_and_in_pieces(self):
        self.fuzz("responses")

    def test_any_chunks_are_read_as_by_a_plain_second_reading(self):
        self.fuzz("chunks")

    def test_any_head_is_written_safely_or_refused(self):
        self.fuzz("written")

    def test_any_env_file_is_read_or_refused(self):
        self.fuzz("env")

    def test_any_TOML_is_read_as_by_Pythons_reader(self):
        self.fuzz("toml")

    def test_any_parameters_are_read_or_refused(self):
        self.fuzz("parameters")

    def test_any_env_vars_are_read_or_refused(self):
        self.fuzz("env_vars")

    def test_any_values_are_read_or_refused(self):
        self.fuzz("values")

    def test_any_project_is_read_or_refused(self):
        self.fuzz("projects")

    def test_any_authorizers_are_read_or_refused(self):
        self.fuzz("authorizers")

    def test_any_token_is_read_or_refused(self):
        self.fuzz("tokens")

    def test_any_answer_of_an_authorizer_is_read_or_refused(self):
        self.fuzz("answers")

    def test_any_result_behind_a_load_balancer_is_read_or_refused(self):
        self.fuzz("behind_alb")

    def test_any_template_with_routes_is_read_or_refused(self):
        self.fuzz("template_routes")
