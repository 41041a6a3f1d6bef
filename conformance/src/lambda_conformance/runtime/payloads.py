"""Payloads: what the handler receives, and what its caller receives."""
import decimal
import json
from typing import Any, Dict, List, Tuple

from .. import pages
from ..again import fault_after
from ..kit import Missing, Scenario, deed, scenarios_of
from ..manners import Manner
from ..exchanges import Exchange, Rule, as_json
from ..stage import Answer, Event, Stage, compact, shown

SCENARIOS: List[Scenario] = []
scenario = scenarios_of(SCENARIOS)

LIMIT = 6_291_456  # bytes of a synchronous payload, in each direction
TEXT = "Grüße, 世界, \u0627\u0644\u0639\u0627\u0644\u0645, 🚀, e\u0301"
ESCAPES = r'"\"\\\/\b\f\n\r\t\u0000\u00e9\u4e16\ud83d\ude80\u2028"'
SPACED = (b' {"a": 1}\n', b'{\r\n\t"a": [\n1,\n2\n],\n\n"b" : true\n}\n', b'\n[ 1\n, "two" ]', b" 17 ")
NUMBERS = ["0", "-1", "1.50", "1e3", "0.1", "9007199254740993", "12345678901234567890", "-1.7976931348623157e308",
           "5e-324"]
PRECISION = decimal.Decimal("1e-13")  # to which some languages write numbers by default (RFC 8259 lets them)
DEPTH = 100
STREAMS = (["the first of the parts, ", "the second one, " * 20, "the third"],
           ["Gr\u00fc\u00dfe, ", "\u4e16\u754c, ", "", "and behind a part that is empty " * 300, "\U0001f680"])
PRELUDE_END = b"\0" * 8  # behind the JSON object with which a stream for HTTP begins
TEXTS = (TEXT, "Gr\u00fc\u00dfe", "\u00e9", "\u4e16\u754c", "\U0001f680",
         "na\u00efve caf\u00e9 \u2014 \u201cd\u00e9j\u00e0 vu\u201d")
MIXED = "a\u00fc\u4e16\U0001f680b\u00e9\u754c\U0001f30dc"  # (its length in bytes has no small divisor)
LONG, PART = 300_000, 4093  # bytes
MANY = 2100  # members
KINDS: Dict[str, Any] = {
    "snake_case_name": 1, "camelCaseName": 2, "PascalCaseName": 3, "kebab-case-name": 4, "SCREAMING_NAME": 5, "ID": 6,
    "URLOfId": 7, "name with spaces": 8, "a.dotted.name": 9, "$dollar": 10, "@at": 11, "_underscore_": 12, "0": 13,
    "10": 14, "gr\u00f6\u00dfe": 15, "\u540d\u524d": 16, "/slash/": 17, "a:colon": 18, "class": 19, "type": 20,
    "#text": 21, "": 22, "__proto__": 23, "constructor": 24, "Twice": 25, "twice": 26,
    "null_member": None, "empty_text": "", "empty_list": [], "empty_object": {}, "false": False,
    "true": True, "zero": 0, "nulls": [None, None],
    "nested": {"null": None, "Inner_Name": {"deepEr": [{"x_y": None}]}}, "date": "2024-01-15",
    "time": "2024-01-15T10:30:00Z", "milliseconds": "2024-01-15T10:30:00.000+00:00",
    "offset": "2024-01-15T10:30:00.120+02:00", "old_date": "/Date(1705314600000)/", "us_date": "01/15/2024",
    "clock": "10:30", "duration": "PT1H", "digits": "0123", "decimal": "1.50", "exponent": "1e5",
    "long": "12345678901234567890", "plus": "+1", "hex": "0x1F", "not_a_number": "NaN", "infinity": "Infinity",
    "word": "true", "no": "no", "nil": "null", "undefined": "undefined", "base64": "SGVsbG8=",
    "uuid": "C0FFEE00-0000-4000-8000-00000000ABCD", "url": "https://example.com/a/b?c=d&e=%20f#g",
    "markup": "<b>&amp; \"quoted\" 'single'</b>", "json": "{\"a\":[1,null]}", "spaces": "  both  ", "only_space": " ",
    "lines": "one\ntwo\r\nthree\n", "tab": "\t", "bom": "\ufefftext", "separators": "\u2028\u2029",
    "backslash": "C:\\dir\\new", "template": "${x} #{y} {{z}} %s %d $1", "combining": "e\u0301",
    "emoji": "\U0001f468\u200d\U0001f469\u200d\U0001f467", "right_to_left": "\u05e9\u05dc\u05d5\u05dd",
    "a name of many letters, " * 20: {"and ": {"of many ": 1, "more ": [None]}}, "x" * 300: "y" * 300,
    "same": {"same": {"same": [{"same": 1}, {"same": 2}]}}, "equal": [{"a": ["b", {}]}, {"a": ["b", {}]}],
    "mixed": [1, "1", True, "true", None, "null", 1.5, "1.5"],
}
LIKE_ERRORS: Tuple[Any, ...] = (
    {"errorMessage": "no cheese left", "errorType": "OutOfCheese"}, {"errorMessage": "no cheese left"},
    {"statusCode": 500, "errorMessage": "no cheese left", "errorType": "OutOfCheese", "stackTrace": []})
HALF_REQUEST = "00000000-0000-4000-8000-00000000a001"
HALF_EVENT = b'{"do":"echo","value":"half \\ud800 of a pair"}'
ANSWERS_WITHIN = 6  # seconds
# Texts that are outputs by themselves, and look like JSON, or like nothing.
ALONE = ('{"a":[1,null]}', "[1, 2]", "null", "true", "17", '"quoted"', "2024-01-15T10:30:00Z", " both ", "one\ntwo",
         "{")


def received(stage: Stage, name: str, event: Event, expected: Any) -> None:
    """Judges a check by whether the caller receives the JSON value that is expected. (Languages with one type for lists
    and objects, such as PHP, have no empty object: a NOTE.)"""
    answer = stage.invoke(event)
    if not answer.failed and not is_json(answer.body, expected) and is_json(answer.body, without_empty(expected)):
        return stage.note(name, "{} came as [], as in a language that has one type for both")
    return stage.check(name, not answer.failed and is_json(answer.body, expected),
                       answer.came())


def without_empty(value: Any) -> Any:
    """A value in which empty objects are empty lists."""
    if isinstance(value, dict):
        return {name: without_empty(member) for name, member in value.items()} or []
    return [without_empty(member) for member in value] if isinstance(value, list) else value


def is_json(body: bytes, expected: Any) -> bool:
    """Whether these bytes are this value as JSON. (In Python alone 1 equals True.)"""
    try:
        return json.dumps(json.loads(body.decode()), sort_keys=True) == json.dumps(expected, sort_keys=True)
    except (ValueError, RecursionError):
        return False


@scenario(
    ("payload_empty", pages.NEXT,
     "a handler that returns its event gives {} for the event {}, which an empty payload is"),
    ("payload_null", pages.NEXT, "a handler that returns its event gives null for the event null"),
    ("payload_scalars", pages.NEXT,
     "a handler that returns its event gives a text, a number, true, false and a list as they are"),
    ("payload_spaces", pages.JSON_GRAMMAR, "spaces and line ends around and within an event mean nothing"))
def small_payloads(stage: Stage) -> None:
    received(stage, "payload_empty", b"", {})
    received(stage, "payload_null", b"null", None)
    for event in (b'""', b'"text"', b"0", b"17", b"true", b"false", b"[]", b'[1,null,{"a":[]}]'):
        received(stage, "payload_scalars", event, json.loads(event))
    for event in SPACED:
        received(stage, "payload_spaces", event, json.loads(event))


@scenario(
    ("utf8", pages.JSON_TEXTS, "text beyond ASCII reaches the handler, and its caller, as the UTF-8 that was sent"))
def text(stage: Stage) -> None:
    for value in TEXTS:
        received(stage, "utf8", {"do": "echo", "value": value}, value)
    received(stage, "utf8", {"do": "bytes", "value": TEXT}, list(TEXT.encode()))


@scenario(
    ("long_text", pages.JSON_TEXTS,
     f"a text of {LONG:,} bytes, whose letters have one to four of them, reaches the handler and its caller whole, "
     "wherever the ends of what is read at once fall"))
def long_text(stage: Stage) -> None:
    stage.environment.proxy.manner = Manner(kinds=("next",), part=PART, pause=0.001)
    for shift in range(2):
        value = "x" * shift + MIXED * (LONG // len(MIXED.encode()))
        received(stage, "long_text", {"do": "echo", "value": value}, value)


@scenario(
    ("kinds", pages.NEXT,
     "an event whose names and values are of each kind that serializers treat in their own way is returned as it is: "
     "names in each case, null, empty members, texts that look like dates, numbers, addresses or markup, many members"))
def kinds_of_members(stage: Stage) -> None:
    received(stage, "kinds", {"do": "echo", "value": KINDS}, KINDS)
    received(stage, "kinds", KINDS, KINDS)
    for value in ([KINDS, [], {}, [[]], None, "", [None]], list(range(MANY)),
                  {f"member {number}": number for number in range(MANY)}, *ALONE):
        received(stage, "kinds", {"do": "echo", "value": value}, value)


@scenario(
    ("escapes", pages.JSON_STRINGS, "each escape of a JSON text stands for the same character in the output"))
def escaped(stage: Stage) -> None:
    received(stage, "escapes", b'{"do":"echo","value":' + ESCAPES.encode() + b"}", json.loads(ESCAPES))


@scenario(
    ("nesting", pages.JSON_NESTING,
     f"an event of {DEPTH} lists and objects inside one another is returned as it is, or refused as an error (a NOTE)"))
def nested(stage: Stage) -> None:
    value: Any = 1
    for level in range(DEPTH):
        value = [value] if level % 2 else {"in": value}
    answer = stage.invoke({"do": "echo", "value": value})
    if answer.failed:
        fault = fault_after(stage, "after a deep event")
        if not fault:
            return stage.note("nesting", f"it reports an error, as its parser may limit depth: {shown(answer.body)}")
        return stage.check("nesting", False, fault)
    return stage.check("nesting", is_json(answer.body, value), answer.came())


@scenario(
    ("numbers", pages.JSON_NUMBERS,
     "numbers are returned as they were written, or at least with the same value as binary64, or to 13 digits of it (a "
     "NOTE); whole numbers beyond 2^53 that come rounded, as in JavaScript, are a SHOULD"))
def numbers(stage: Stage) -> None:
    sent = "[" + ",".join(NUMBERS) + "]"
    answer = stage.invoke(b'{"do":"echo","value":' + sent.encode() + b"}")
    body = answer.body.decode(errors="replace")
    if "".join(body.split()) == sent:
        return stage.check("numbers", True, "as they were written")
    try:
        came = json.loads(body, parse_int=Written, parse_float=Written)
        pairs = list(zip(NUMBERS, as_many(came)))
    except (ValueError, TypeError):
        return stage.check("numbers", False, answer.came())
    changed = [f"{before} came as {after}" for before, after in pairs if before != after]
    rounded = [f"{before} came as {after}" for before, after in pairs if is_rounded(before, after)]
    if rounded and all(is_near(before, after) for before, after in pairs):
        return stage.should("numbers", f"whole numbers beyond 2^53 are rounded: {', '.join(rounded)}")
    if all(float(before) == float(after) for before, after in pairs):
        return stage.note("numbers", "the same as binary64, written otherwise: " + ", ".join(changed))
    if all(is_near(before, after) for before, after in pairs):
        return stage.note("numbers", "the same to 13 digits, as its writer may limit precision: " + ", ".join(changed))
    return stage.check("numbers", False, deed(", ".join(changed)))


def is_near(before: str, after: str) -> bool:
    """Whether a number is the same to a few digits. (The greatest one is beyond binary64, if its last digits are.)"""
    wanted = decimal.Decimal(before)
    return float(before) == float(after) or abs(decimal.Decimal(after) - wanted) <= PRECISION * abs(wanted)


def is_rounded(before: str, after: str) -> bool:
    """Whether a whole number came as another one."""
    return before.lstrip("-").isdigit() and decimal.Decimal(before) != decimal.Decimal(after)


class Written(str):
    """A number as it was written; a text of the same letters is none."""


def as_many(came: Any) -> List[str]:
    """The numbers that came, if they are as many as were sent."""
    if not isinstance(came, list) or len(came) != len(NUMBERS) or not all(isinstance(word, Written) for word in came):
        raise ValueError
    return came


@scenario(
    ("payload_limit", pages.QUOTAS,
     f"an event of {LIMIT:,} bytes reaches the handler whole, and its output the caller"),
    ("output_limit", pages.QUOTAS, f"an output of {LIMIT:,} bytes reaches the caller"), lasts=3)
def large_payloads(stage: Stage) -> None:
    value = "x" * (LIMIT - len(compact({"do": "echo", "value": ""})))
    answer = stage.invoke({"do": "echo", "value": value})
    stage.check("payload_limit", is_json(answer.body, value),
                answer.came(f"the caller received {len(answer.body):,} bytes: {shown(answer.body)}"))
    answer = stage.invoke({"do": "large", "value": LIMIT - 2})
    stage.check("output_limit", answer.body == b'"' + b"x" * (LIMIT - 2) + b'"',
                answer.came(f"the caller received {len(answer.body):,} bytes: {shown(answer.body)}"))
    fault = fault_after(stage, "after a large output")
    if fault:
        stage.check("output_limit", False, fault)


@scenario(
    ("stdout", pages.RESPONSE, "what a handler writes to standard output is no part of its response"))
def printed(stage: Stage) -> None:
    answer = stage.invoke({"do": "print", "value": "this is no output"})
    stage.check("stdout", answer.body.strip() == b"null", answer.came())


@scenario(
    ("events_apart", pages.REUSE, "an invocation sees nothing of the events before it"))
def events_one_after_the_other(stage: Stage) -> None:
    stage.output({"do": "echo", "value": "the first, which is longer than those behind it"})
    received(stage, "events_apart", {"do": "echo", "value": 2}, 2)
    received(stage, "events_apart", {"do": "echo"}, None)
    received(stage, "events_apart", {"a": 1}, {"a": 1})


@scenario(
    ("output_like_error", pages.RESPONSE,
     "an output that has \"errorMessage\" and \"errorType\" is sent to response all the same: the handler returned it"))
def outputs_like_errors(stage: Stage) -> None:
    for value in LIKE_ERRORS:
        before = len(stage.environment.proxy.of("error"))
        answer = stage.invoke({"do": "echo", "value": value})
        sent = [one for one in stage.environment.proxy.of("error")[before:] if not one.refused]
        stage.check("output_like_error", not sent and not answer.failed and is_json(answer.body, value),
                    deed(f"the output {shown(value)} is sent as an error: {sent[0]}") if sent else answer.came())


@scenario(
    ("half_characters", pages.JSON_CHARACTERS,
     "an event with half of a surrogate pair (\\ud800), which JSON's grammar has and no character is, gives an output "
     "or an error, and the next invocations are right; one that ends for it, or gives neither, is a SHOULD"))
def half_of_a_pair(stage: Stage) -> None:
    """(The service takes no such event from a caller, as `serde_json` does not: the proxy delivers it.)"""
    proxy = stage.environment.proxy
    stage.idle()
    for kind in ("response", "error"):
        proxy.always[kind] = Rule(kind, reply=(202, b'{"status":"OK"}'), of=HALF_REQUEST)
    proxy.rule = Rule("next", reply=(200, HALF_EVENT), headers=delivered(HALF_REQUEST))
    stage.output({"do": "echo", "value": 1})
    proxy.wait(lambda: answers_to(stage, HALF_REQUEST) or stage.environment.process.ended, ANSWERS_WITHIN)
    process = stage.environment.process
    if not answers_to(stage, HALF_REQUEST) and not process.ended:
        return stage.should("half_characters", f"{ANSWERS_WITHIN} s later it has sent neither an output nor an error")
    sent = answers_to(stage, HALF_REQUEST)
    fault = fault_after(stage, "after half a character")
    if not fault and process.ended:
        return stage.should("half_characters", f"{process.how_it_ended()}, "
                                               f"{'after its answer' if sent else 'without an answer'}")
    return stage.check("half_characters", not fault, fault, f"it sent {sent[0].kind if sent else 'nothing'}")


def answers_to(stage: Stage, request: str) -> List[Exchange]:
    return [one for one in stage.environment.proxy.of("response", "error") if one.request_id == request and one.ended]


def delivered(request: str) -> Tuple[Tuple[str, str], ...]:
    """The headers with which an invocation of the proxy's own is delivered."""
    return (("Lambda-Runtime-Aws-Request-Id", request), ("Lambda-Runtime-Deadline-Ms", "4102444800000"),
            ("Lambda-Runtime-Trace-Id", "Root=1-5759e98d-bd862e3fe1be46a994272793;Parent=53995c3f42cd8ad8;Sampled=1"),
            ("Lambda-Runtime-Invoked-Function-Arn", "arn:aws:lambda:us-east-1:123456789012:function:f"))


@scenario(
    ("stream", pages.STREAMING,
     "a streamed response has Lambda-Runtime-Function-Response-Mode: streaming and is sent in chunks, none of which is "
     "its end before its time; a runtime that streams nothing sends the texts as one (a NOTE)"))
def streamed(stage: Stage) -> None:
    for texts in STREAMS:
        answer = stage.invoke({"do": "stream", "value": texts})
        exchange = stage.environment.saw("response", 5, len(stage.environment.proxy.of("response")))
        if exchange is None:
            raise Missing("it sent no response")
        judge_stream(stage, "".join(texts), answer, exchange)
    fault = fault_after(stage, "after a stream")
    if fault:
        stage.check("stream", False, fault)


def judge_stream(stage: Stage, whole: str, answer: Answer, exchange: Exchange) -> None:
    mode = exchange.request.headers.get("lambda-runtime-function-response-mode")
    if mode is None:
        if is_json(answer.body, whole):
            return stage.note("stream", "it does not stream: the response came whole")
        return stage.check("stream", False, answer.came())
    prelude, zeros, rest = answer.body.partition(PRELUDE_END)
    body = rest if zeros and isinstance(as_json(prelude), dict) else answer.body
    right = (mode.lower() == "streaming" and exchange.request.chunked
             and body in (whole.encode(), f'"{whole}"'.encode()))
    return stage.check("stream", right,
                       answer.came(f"mode {shown(mode)}, {'' if exchange.request.chunked else 'not '}in chunks, and "
                                   f"the caller received {shown(answer.body)}"))
