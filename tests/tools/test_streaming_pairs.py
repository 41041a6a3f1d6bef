"""Checks whose a streamed response is: the caller's of the invocation that the service says, at the environment that
serves it, whatever traces are handed on and whatever processes post. The program is LAMBDA_LOCAL_PROGRAM, else
./lambda_local."""
import asyncio
import itertools
import json
import os
import sys
import threading
import time
from typing import Any, Dict, List

from lambda_local.history.entries import Answer, Call, Entry
from lambda_local.history.words import Word
from lambda_local.streaming import streams as streaming
from lambda_local.streaming.pairing import Pairing
from lambda_local.streaming.streams import Streams, token_in
from tests.library.cases import Case
from tests.library.up_kit import Up, until
from tests.tools.test_streaming import ask, messages, quoted

# A runtime whose events say, step by step, what it does before its response: it invokes another function with its own
# trace, posts at its own address a streamed response for another identifier, notes its identifier, waits for a file,
# posts half a response. `answer` is what it streams then, or gives whole.
PAIRED = f'''#!{sys.executable}
import http.client, json, os, socket, sys, time
API = os.environ["AWS_LAMBDA_RUNTIME_API"]
HOST, PORT = API.split(":")
BASE = "/2018-06-01/runtime/invocation/"
def stream(name, parts, ends=True):
    peer = socket.create_connection((HOST, int(PORT)))
    peer.sendall(("POST " + BASE + name + "/response HTTP/1.1\\r\\nHost: x\\r\\nTransfer-Encoding: chunked\\r\\n"
                  "Lambda-Runtime-Function-Response-Mode: streaming\\r\\n\\r\\n").encode())
    for part in parts:
        peer.sendall(b"%x\\r\\n%b\\r\\n" % (len(part), part.encode()))
        time.sleep(0.05)
    if not ends: return peer.close()
    peer.sendall(b"0\\r\\n\\r\\n")
    return peer.recv(65536).decode().split(" ")[1]
def invoke(function, event, trace, path="/2015-03-31/functions/%s/invocations"):
    api = http.client.HTTPConnection(os.environ["AWS_ENDPOINT_URL_LAMBDA"].partition("//")[2])
    api.request("POST", path % function, json.dumps(event), {{"X-Amzn-Trace-Id": trace}})
    return api.getresponse().read()
def note(name, text):
    with open(name + ".new", "w") as file: file.write(text)
    os.rename(name + ".new", name)
if os.path.exists("early"):
    note("refused", str(stream(open("early").read(), ["EARLY"])))
while True:
    api = http.client.HTTPConnection(API)
    api.request("GET", BASE + "next")
    answer = api.getresponse()
    event = json.loads(answer.read())
    if answer.status != 200: sys.exit(0)
    name, trace = answer.headers["Lambda-Runtime-Aws-Request-Id"], answer.headers["Lambda-Runtime-Trace-Id"]
    event = json.loads(event["queryStringParameters"]["event"]) if "queryStringParameters" in event else event
    for kind, value in event.get("steps", []):
        if kind == "invoke": invoke(*value, trace)
        if kind == "invoke-streamed":
            invoke(*value, trace, "/2021-11-15/functions/%s/response-streaming-invocations")
        if kind == "post": note("posted", str(stream(value, ["FORGED"])))
        if kind == "half": stream(name, [value], False)
        if kind == "note": note(value, name)
        if kind == "exit": os._exit(3)
        while kind == "wait" and not os.path.exists(value): time.sleep(0.01)
    if event.get("whole"):
        api = http.client.HTTPConnection(API)
        api.request("POST", BASE + name + "/response", json.dumps(event["whole"]))
        api.getresponse().read()
    else:
        stream(name, event.get("answer", ["a"]))
'''


def up_of(**more: Any) -> Any:
    """Functions `a`, `b` and `g` with streaming URLs, and `w` without one."""
    def function(name: str, **members: Any) -> Dict[str, Any]:
        return {"name": name, "command": ["./paired"], "timeout": 5, **members}
    url = {"url": {"invoke": "RESPONSE_STREAM"}}
    functions = [function("a", **url, **more.pop("of_a", {})), function("b", **url), function("g", **url),
                 function("w")]
    return Up(functions=functions, files={"paired": PAIRED, **more.pop("files", {})}, **more)


def asked(up: Any, function: str, **event: Any) -> Any:
    """What a caller of a streaming URL gets: status and body, and whether that is whole."""
    import http.client
    address = up.told(rf"{function}: its URL is http://([0-9.:]+)/")
    connection = http.client.HTTPConnection(address, timeout=30)
    connection.request("GET", "/?event=" + quoted(event))
    answer = connection.getresponse()
    try:
        return answer.status, answer.read(), True
    except http.client.IncompleteRead as fault:
        return answer.status, fault.partial, False


def streamed(up: Any, function: str, **event: Any) -> Any:
    """What InvokeWithResponseStream gives: the bytes, and its last message."""
    _, headers, body = ask(up, event, f"/2021-11-15/functions/{function}/response-streaming-invocations")
    found = messages(body)
    return b"".join(data for kind, data in found if kind == "PayloadChunk"), json.loads(found[-1][1]).get("ErrorCode")


def entries_of(token: str, identifier: str, environment: int, ticket: int) -> List[Entry]:
    """An Invoke, its delivery to a poll, and its answer."""
    trace = f"Root=1;Lineage=1:{token}:0"
    return [Entry(ticket, ticket, Call("invoke", function="f", trace=trace), request=identifier, place=environment,
                  charged=ticket),
            Entry(ticket + 1, ticket, Call("next", environment), (Answer(ticket + 1, Word.DELIVER, request=identifier,
                                                                         source=ticket),)),
            Entry(ticket + 2, ticket, Call("response", environment, id=1), (Answer(ticket, Word.OUTPUT,
                                                                                   source=ticket + 2),))]


HEADERS = [("Lambda-Runtime-Function-Response-Mode", "streaming")]


class StreamingPairs(Case):
    def test_an_inner_invocation_gets_its_own_answer(self) -> None:
        """A function that invokes another one before it answers, with the trace that it was given."""
        up = up_of()
        self.check("it is ready", up.until("[up] ready"), True)
        inner: Dict[str, object] = {"answer": ["SECRET OF b"]}
        within: Dict[str, object] = {"steps": [["invoke", ["g", {"answer": ["g"]}]]], **inner}
        for name, steps in {"an inner invocation": [["invoke", ["b", inner]]],
                            "one that is streamed": [["invoke-streamed", ["b", inner]]],
                            "one of one": [["invoke-streamed", ["b", within]]]}.items():
            self.check(f"{name}: the outer's caller", asked(up, "a", steps=steps, answer=["I am ", "a"]),
                       (200, b"I am a", True))
            self.check(f"{name}: by its operation", streamed(up, "a", steps=steps, answer=["I am ", "a"]),
                       (b"I am a", None))
            self.check(f"{name}: of a function without a proxy's streams",
                       streamed(up, "w", steps=steps, answer=["I am ", "w"]), (b"I am w", None))
            self.check(f"{name}: of an answer in one piece", asked(up, "a", steps=steps, whole="a"),
                       (200, b'"a"', True))
        self.check("it ends", up.end(), (0, []))

    def test_what_another_process_posts_goes_to_nobody(self) -> None:
        """What another process posts goes to nobody; nor does what is posted before, or after, its time."""
        up = up_of(of_a={"environments": 2})
        self.check("it is ready", up.until("[up] ready"), True)

        def at(name: str) -> str:
            return os.path.join(up.at, name)
        for round, (kind, forger) in enumerate((("of another function", "g"), ("of another environment", "a"))):
            seen: List[Any] = []
            steps = [["note", f"id{round}"], ["wait", f"go{round}"]]
            caller = threading.Thread(target=lambda: seen.append(asked(up, "a", steps=steps, answer=["mine"])))
            caller.start()
            until(lambda: os.path.exists(at(f"id{round}")), 20)
            with open(at(f"id{round}")) as file:
                identifier = file.read()
            self.check(f"a process {kind} has its own caller", asked(up, forger, steps=[["post", identifier]],
                                                                     answer=["own"]), (200, b"own", True))
            with open(at("posted")) as file:
                self.check("the service has refused what it posted", file.read(), "400")
            up.write(f"go{round}", "")
            caller.join(20)
            self.check("the caller gets its own function's answer", seen, [(200, b"mine", True)])
        for name, steps in {"other bytes": [["half", "some"]], "the same ones": [["half", "mi"]]}.items():
            self.check(f"a response that breaks off and is posted again with {name} is none to a URL",
                       asked(up, "a", steps=steps, answer=["mine"])[::2], (200, False))
            self.check("and an error by its operation", streamed(up, "a", steps=steps, answer=["mine"])[1],
                       "Runtime.TruncatedResponse")
        self.check("one that is late", asked(up, "b", steps=[["note", "late"], ["wait", "never"]])[0], 502)
        with open(at("late")) as file:
            late = file.read()
        until(lambda: up.count("b/1.*timeout after") == 1, 20)
        time.sleep(1)
        self.check("does not reach the next caller",
                   asked(up, "b", steps=[["post", late]], answer=["mine"]), (200, b"mine", True))
        self.check("one whose process exits", asked(up, "b", steps=[["half", "some"], ["exit", 3]])[::2], (200, False))
        self.check("does not either", asked(up, "b", answer=["mine"]), (200, b"mine", True))
        self.check("it ends", up.end(), (0, []))

    def test_a_response_that_is_posted_in_init_is_refused_and_its_caller_gets_its_own(self) -> None:
        """A response that is posted in Init, for the invocation that waits for its end."""
        salt = 1 << 16
        identifier = "00000000-0001-8000-8001-000000000001"
        up = up_of(files={"early": identifier}, whole={"salt": salt})
        self.check("it is ready", up.until("[up] ready"), True)
        self.check("it gets its own", asked(up, "a", answer=["mine"]), (200, b"mine", True))
        with open(os.path.join(up.at, "refused")) as file:
            self.check("what came early was refused", file.read() in ("400", "403"))
        self.check("it ends", up.end(), (0, []))

    def test_a_response_reaches_its_caller_in_whatever_order_things_are_seen(self) -> None:
        """The history, the proxies and a response may be seen in any order: it reaches its caller once the history says
        so, and no other does."""
        async def told(order: Any, environment: int, others: bool) -> Any:
            streams = Streams()
            expected, later = streams.expect(), streams.expect()
            pairing = Pairing(streams, {1, 2}, lambda what, *given: what(*given))
            invoke, deliver, _ = entries_of(expected.token, "r", 1, 0)
            copied = entries_of(expected.token, "s", 2, 10)  # an inner one, with the outer's trace
            begun = None
            for step in order:
                if step == "begins":
                    begun = streams.begins(environment, "r", HEADERS)
                elif step == "passes":
                    streams.passed(1, "r")
                else:
                    pairing.take(invoke if step == "invoke" else deliver)
                    for entry in copied if others and step == "invoke" else []:
                        pairing.take(entry)
            for held in streams.held.values():
                held.giving_up.cancel()
            is_given = expected.begun.done() and expected.begun.result() is begun
            assert not later.begun.done() and not (begun is None and expected.begun.done())
            return is_given, expected.identifier
        orders = [order for order in itertools.permutations(("invoke", "passes", "deliver", "begins"))
                  if order.index("invoke") < order.index("deliver")]
        for environment, others in itertools.product((1, 2), (False, True)):
            for order in orders:
                wanted = environment == 1 and order.index("passes") < order.index("begins")
                self.check(f"{' '.join(order)} at {environment}{', with inner ones' if others else ''}",
                           asyncio.run(told(order, environment, others)), (wanted, "r"))

    def test_what_the_history_says_nothing_of_is_held_for_a_while_and_then_nobodys(self) -> None:
        """What the history says nothing of is held for a while, and then nobody's."""
        async def held() -> None:
            streams, before = Streams(), streaming.HELD_SECONDS
            streaming.HELD_SECONDS = 0.1
            try:
                streams.passed(1, "r")
                stream = streams.begins(1, "r", HEADERS)
                assert stream is not None
                stream.feed(bytes(300 << 10))
                room: List[int] = []
                stream.on_room = lambda: room.append(1)
                self.check("its runtime waits meanwhile", stream.is_full)
                await asyncio.sleep(0.3)
                self.check("it goes on then", (room, stream.is_full, streams.held), ([1], False, {}))
                streams.delivered(1, "r")
                self.check("a further one is not streamed", streams.begins(1, "r", HEADERS), None)
            finally:
                streaming.HELD_SECONDS = before
        asyncio.run(held())

    def test_what_was_streamed_counts_if_the_history_is_read_late(self) -> None:
        """What was streamed is that for its caller too if the service answers before its history is read."""
        async def late() -> None:
            streams = Streams()
            streams.passed(1, "r")
            stream = streams.begins(1, "r", [*HEADERS, ("Content-Type", "a/b")])
            assert stream is not None
            stream.feed(b"so")
            stream.feed(b"me")
            found = streams.late("r", b"some")
            self.check("the response", found and (found.content_type, [piece async for piece in found.pieces()]),
                       ("a/b", [b"some"]))
            self.check("another's", streams.late("s", b"some"), None)
            self.check("one that was not streamed", streams.late("r", b"same"), None)
            streams.held[1].giving_up.cancel()
        asyncio.run(late())

    def test_traces_are_paired_with_their_callers(self) -> None:
        async def traces() -> None:
            streams = Streams()
            outer, inner = streams.expect(), streams.expect()
            given = outer.trace("Root=1-2;Parent=3")
            self.check("a Lineage", (given, token_in(given)), (f"Root=1-2;Parent=3;Lineage=1:{outer.token}:0",
                                                               outer.token))
            self.check("takes the place of the outer's", inner.trace(given),
                       f"Root=1-2;Parent=3;Lineage=1:{inner.token}:0")
            self.check("one that would be too long is a new one", token_in(inner.trace("x" * 250)), inner.token)
            self.check("one of another form stays", inner.trace("Lineage=a:1|b:2"),
                       f"Lineage=a:1|b:2;Lineage=1:{inner.token}:0")
        asyncio.run(traces())
