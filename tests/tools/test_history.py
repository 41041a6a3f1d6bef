"""Checks tools/lambda_local/history: recorded histories, the entries of a text, and those of a service as they come,
also of one that breaks off, is silent or answers otherwise. The program is LAMBDA_LOCAL_PROGRAM, else
./lambda_local."""
import asyncio
import contextlib
import itertools
import json
import socket
import threading
from typing import List, Tuple

from lambda_local.history.entries import Answer, Call, Entry
from lambda_local.history.running import Running
from lambda_local.history.shapes import NotTrace
from lambda_local.history.trace import Lost
from lambda_local.history.words import Word
from lambda_local.rerun.record import parsed
from lambda_local.service import Fault, Service, ask
from lambda_local.up.following import Following, Pace
from tests.library.cases import Case
from tests.library.fake_trace import HEAD, LAST, Fake, chunks, failed, line
from tests.library.timelines import PROGRAM
from tests.library.traces import all_at_once, entries_in, one_by_one
from tests.library.up_kit import until

REQUEST = "00000000-0000-8000-8001-000000000001"
CONFIGURATION = ('{"account":"123456789012","accountLimit":1000,"functions":[{"extensions":[EXTENSIONS],'
                 '"handler":"a.b","name":"NAME","ports":[1],"timeout":3}],"invokePort":9,"leastRemainder":100,'
                 '"maxEntries":1000,"region":"us-east-1","salt":0}')
OPENING = "form 2\n" + CONFIGURATION.replace("EXTENSIONS", "").replace("NAME", "f") + "\n"
# One function, one environment: a poll, an invocation, its response, and the end of a Busy whose runtime does not ask
# again, with a comment between them.
TEXT = OPENING + f"""1 next 1
5 invoke f - =Root=1 ={{"a":%201}}
# 1 0 deliver {REQUEST} 3005 ={{"a":%201}}
# x y z
9 response 1 1 ="ok"
# 2 1 output ="ok"
# 2 2 accepted
## 3005 expire 1
3005 tick
# 4 4 done
"""
# Lines that no history has, each by what is wrong with it, and what is said of it.
WRONG_LINES = {"a call that is none": "1 dance 1", "no moment": "x next 1", "a field too few": "1 response 1",
               "a field too many": "1 stop 2", "an environment of 5,000 digits": "1 next " + "9" * 5000,
               "a number of another script": "1 next \u0661", "an environment that is not there": "1 next 2"}
WRONG_ANSWERS = {"an answer that is none": "0 0 dances", "a delivery without its body": "0 0 deliver 1",
                 "an identifier that is none": "0 0 registered x", "an answer to a poll that waits": "0 0 accepted"}


def refused(read, *words):
    """The fault of a reader over something, which must be its own."""
    try:
        read(*words)
    except Fault as fault:
        return str(fault)
    return "is read"


def recorded(lines="", extensions='"x"', name="f"):
    """What is said of a recorded history with these lines, or this configuration."""
    opening = CONFIGURATION.replace("EXTENSIONS", extensions).replace("NAME", name)
    return refused(parsed, f"form 2\n{opening}\n{lines}\n", "F", PROGRAM)


def entry(ticket):
    return Entry(ticket, ticket, Call("next", environment=1))


def entries_of(following):
    """The entries that come to a task, and how it ends."""
    async def take():
        entries = []
        try:
            while some := await following.entries():
                entries += some
        except (Lost, NotTrace) as fault:
            return entries, str(fault)
        finally:
            following.close()
        return entries, ""
    return asyncio.run(take())


def taken_later(following):
    """Their tickets, and how it ends."""
    entries, end = entries_of(following)
    return [one.ticket for one in entries], end


def taken(running):
    """The tickets of the entries that come, and how it ends."""
    tickets = []
    try:
        for one in running.entries():
            tickets.append(one.ticket)
    except (Lost, NotTrace) as fault:
        return tickets, str(fault)
    return tickets, ""


@contextlib.contextmanager
def following(*answers, pieces=1 << 20, silent=False, **more):
    server = Fake(*answers, pieces=pieces, silent=silent)
    running = Running(server.port, 1, **more)
    try:
        yield running, server
    finally:
        running.close()
        server.close()


@contextlib.contextmanager
def as_task(*answers, pieces=1 << 20, silent=False, **more):
    """The same for a task, without bodies."""
    server, loop = Fake(*answers, pieces=pieces, silent=silent), asyncio.new_event_loop()
    try:
        yield Following(server.port, 1, loop, **more), server
    finally:
        loop.close()
        server.close()


TARGET = "/_local/trace?follow=1&from="
BARE, OTHER, LAST_ONE = (line(ticket).strip() for ticket in range(3))
# Lines that are entries only together with those beside them, each by what goes over from one to the next.
ONLY_TOGETHER = {
    "a string": [b'{"answers":[],"call":{"function":"}', b'{","kind":"reserve"},"moment":0,"phases":[],'
                 b'"released":[],"ticket":0}'],
    "an array": [b'{"answers":[{"answer":"accepted","ticket":0}', b'{"answer":"done","ticket":0}],"call":'
                 b'{"kind":"tick"},"moment":0,"phases":[],"released":[],"ticket":0}'],
    "an array, and a second entry": [b'{"answers":[{"answer":"accepted","ticket":0}', b'{"answer":"done","ticket":0}]'
                                     b',"call":{"kind":"tick"},"moment":0,"phases":[],"released":[],"ticket":0},0,'
                                     + OTHER],
    "an array between two entries": [BARE + b",[{}", b"{}]," + OTHER],
    "a value too many": [BARE + b",0,{}", b'{"answers":[{}', b"{}]}"],
    "two entries in a line, and one in two": [BARE + b",0," + OTHER, LAST_ONE[:-13], LAST_ONE[-13:]],
    "an object": [BARE[:-1], b'"ticket":0}', OTHER]}
NOT_BESIDE_OTHERS = {
    "a member twice": BARE[:-1] + b',"ticket":0}', "a blank after a name": BARE.replace(b'"moment":', b'"moment" :'),
    "a number that is not whole": BARE.replace(b'"moment":0', b'"moment":0.0'), "nothing": b"", "a zero": b"0",
    "half a character": BARE.replace(b"next", b"\xe2\x82"), "a blank before it": b" " + BARE,
    "a flag": BARE.replace(b'"environment":1', b'"environment":true'), "two entries": BARE + b"," + OTHER,
    "5,000 digits": BARE.replace(b'"moment":0', b'"moment":' + b"1" * 5000), "depth": b"[" * 100_000}

LIKE = BARE.replace(b'"environment":1,"kind":"next"', b'"bodyLength":2,"function":"f","kind":"invoke","qualified":'
                    b'false,"trace":"Root=1"').replace(b"}", b'},"charged":0', 1).replace(
    b'"released":[]', b'"place":1,"released":[3],"request":"' + REQUEST.encode() + b'"')
AFTER = LIKE.replace(b'"ticket":0', b'"ticket":1')
# What is another value in a line that is like the one before, and whether it is an entry.
OTHER_VALUES = {
    "a length": ((b":2,", b":18446744073709551615,"), True),
    "one of 65 bits": ((b":2,", b":18446744073709551616,"), False),
    "one with a zero before it": ((b":2,", b":02,"), False), "one that is not whole": ((b":2,", b":2e0,"), False),
    "a flag": ((b":2,", b":true,"), False), "digits of another script": ((b":2,", ":\u0662,".encode()), False),
    "a name": ((b'"f"', b'"1,2"'), True), "an escape": ((b'"f"', b'"\\u0041"'), True),
    "a name of two lines": ((b'"f"', b'"\\n"'), False), "a name and a colon": ((b'"f"', b'":1,"'), False),
    "a name that is none": ((b'"f"', b'"\x7f"'), False), "bytes": ((b'"f"', b'"\xff"'), False),
    "a number for a name": ((b'"f"', b"1"), False), "two for one": ((b":2,", b':2,"environment":1,'), False),
    "a trace": ((b"Root=1", b"Root=2;a:7,"), True), "no trace": ((b',"trace":"Root=1"', b""), True),
    "tickets": ((b"[3]", b"[3,4]"), True), "a ticket below zero": ((b"[3]", b"[-3]"), False),
    "an identifier": ((b"-8000-", b"-80ff-"), True), "one that is none": ((b"-8000-", b"-80FF-"), False),
    "another place": ((b'"place":1', b'"place":2'), False), "a blank": ((b':2,', b": 2,"), True)}


class History(Case):
    def test_the_lines_of_a_history_are_its_entries(self):
        poll, invoke, response, expiry, tick = entries_in(TEXT)
        self.check("a poll that waits", (poll.call, poll.own, poll.answers), (Call("next", 1), None, ()))
        self.check("an invocation's name, payload and trace", invoke.call,
                   Call("invoke", function="f", body=b'{"a": 1}', trace="Root=1"))
        self.check("its delivery", invoke.answers,
                   (Answer(0, Word.DELIVER, 3005, REQUEST, source=1, body=b'{"a": 1}'),))
        self.check("a response", (response.call, response.own and response.own.word),
                   (Call("response", 1, id=1, body=b'"ok"'), Word.ACCEPTED))
        self.check("an expiry", (expiry.ticket, expiry.call, expiry.expires, expiry.answers),
                   (3, Call("expire", 1), 1, ()))
        self.check("what follows it", (tick.ticket, tick.call), (4, Call("tick")))
        self.check("it is a recording", refused(parsed, TEXT, "F", PROGRAM), "is read")

    def test_wrong_histories_are_refused(self):
        for name, wrong in WRONG_LINES.items():
            seen = recorded(wrong)
            self.check(f"{name} is refused", seen.startswith("F: line 3 "), shown=seen)
        for name, wrong in WRONG_ANSWERS.items():
            seen = recorded(f"1 next 1\n# {wrong}", extensions="")
            self.check(f"{name} is refused", seen.startswith(f"F: line 4: the history has `{wrong}`, but the replay "),
                       shown=seen)
        self.check("a comment is no answer", recorded("# 1\n1 next 1\n# 0\n#\n# x y z", extensions=""), "is read")
        for name, text in {"nothing": "", "5,000 levels": "form 2\n" + "[" * 5000, "a list": "form 2\n[]"}.items():
            self.check(f"an opening of {name} is refused", refused(parsed, text, "F", PROGRAM) != "is read")

    def test_wrong_recordings_are_refused(self):
        self.check("a recording with a trace", recorded("1 invoke f - =Root=1-2;Sampled=0 ={}"), "is read")
        self.check("a trace that would be two headers", recorded("1 invoke f - =a%0d%0ab:%20c ={}").startswith(
            "F: line 3 is not a call: "), True)
        shape = "F: configuration: BadShape: a member is missing or of another type; docs/formats.md lists them"
        self.check("an extension that is a number", recorded(extensions="5"), shape)
        self.check("half a character in a name", recorded(name="\\ud83d"), shape)
        self.check("5,000 levels", recorded(extensions="[" * 5000 + "]" * 5000).startswith("F: configuration: NotJson"),
                   True)
        self.check("an answer that is none", recorded("1 tick\n# 0 0 dances"),
                   "F: line 4: the history has `0 0 dances`, but the replay answers `0 0 done`: the history was "
                   "edited, or recorded by another version of lambda_local")

    def test_a_trace_is_followed_in_chunks_and_pieces_of_any_size(self):
        body = line(0) + line(1) + line(2)
        for size, pieces in itertools.product((1, 7, 1000), (1, 5, 1000)):
            with following(HEAD + chunks(body, size) + LAST, pieces=pieces) as (running, _):
                self.check(f"chunks of {size} bytes in pieces of {pieces}", list(running.entries()),
                           [entry(0), entry(1), entry(2)])
            with as_task(HEAD + chunks(body, size) + LAST, pieces=pieces) as (running, _):
                self.check("and to a task", entries_of(running), ([entry(0), entry(1), entry(2)], ""))

    def test_each_line_is_an_entry_also_of_those_that_are_read_at_once(self):
        """What is refused of a line alone is refused beside others, by the same words, after the entries before it."""
        for name, lines in ONLY_TOGETHER.items():
            found, said = all_at_once(lines, 1)
            self.check(f"{name}: the same as each alone", (found, said), one_by_one(lines, 1))
            self.check(f"{name}: it is refused", (found, said[:8]), ([], "entry 0 "))
        for name, wrong in NOT_BESIDE_OTHERS.items():
            found, said = all_at_once([BARE, OTHER, wrong, LAST_ONE], 1)
            self.check(f"{name}: the same as alone", (found, said), one_by_one([BARE, OTHER, wrong, LAST_ONE], 1))
            self.check(f"{name}: it is refused after those before it", ([one.ticket for one in found], said[:8]),
                       ([0, 1], "entry 2 "))
        self.check("right ones are all read", all_at_once([BARE, OTHER, LAST_ONE], 1),
                   ([entry(0), entry(1), entry(2)], ""))

    def test_a_line_like_one_before_is_read_as_strictly(self):
        for name, ((old, new), is_entry) in OTHER_VALUES.items():
            lines = [LIKE, AFTER.replace(old, new, 1)]
            self.check(f"{name}: the edit fits", lines[1] != AFTER)
            found, said = all_at_once(lines, 1)
            self.check(f"{name}: as alone", (found, said), one_by_one(lines, 1))
            self.check(f"{name}: whether it is an entry", (len(found) == 2, said == ""), (is_entry, is_entry))
        self.check("it has the values of its own line", all_at_once(
            [LIKE, AFTER.replace(b":2,", b":5,").replace(b"Root=1", b"R=9").replace(b"[3]", b"[7]")], 1)[0][1], Entry(
                1, 0, Call("invoke", function="f", length=5, trace="R=9"), released=(7,), request=REQUEST, place=1,
                charged=0))

    def test_a_rest_fits_what_comes(self):
        """It is short while few entries come, and longer while many do. Who is behind does not rest."""
        pace = Pace()
        for name, passed, size, wanted in (
                ("the first", 100.0, 300, 0.01), ("few", 0.01, 300, 0.01), ("some", 0.05, 24 << 10, 0.05),
                ("more", 0.05, 32 << 10, 0.1), ("many", 0.01, 32 << 10, 0.1), ("less", 0.05, 4 << 10, 0.05),
                ("few again", 0.05, 3 << 10, 0.01), ("much", 0.01, (40 << 10) + 1, 0.0)):
            self.check(name, round(pace.rest(pace.since + passed, pace.size + size), 4), wanted)
        pace.longest = 0.02
        self.check("some, no longer than it may", pace.rest(pace.since + 0.05, pace.size + (24 << 10)), 0.02)
        count, rests = 20_000, []

        async def wait(seconds):
            rests.append(seconds)
            await asyncio.sleep(seconds)
        body = b"".join(map(line, range(count)))
        with as_task(HEAD + chunks(body, 1000) + LAST, is_awaited=lambda: False) as (running, _):
            running.hurry.wait = wait
            entries, end = entries_of(running)
            self.check("all come", (len(entries), end), (count, ""))
            pieces = len(body) // (128 << 10)
            self.check("not after a rest for each piece", len(rests) < pieces / 2, shown=(rests, pieces))

    def test_a_connection_that_breaks_goes_on_with_the_next_entry(self):
        with following(HEAD + chunks(line(0)), HEAD + chunks(line(1) + line(2)[:20]), HEAD + chunks(line(2)) + LAST
                       ) as (running, server):
            self.check("a connection that breaks", taken(running), ([0], "the connection ends within a message"))
            self.check("in a line", taken(running), ([1], "the connection ends within a message"))
            self.check("it goes on with the next entry", (taken(running), running.next), (([2], ""), 3))
            self.check("what was asked", server.asked, [f"{TARGET}{n}" for n in (0, 1, 2)])
        with as_task(HEAD + chunks(line(0)), HEAD + chunks(line(1) + line(2)[:20]), HEAD + chunks(line(2)) + LAST
                     ) as (running, server):
            self.check("to a task", [taken_later(running) for _ in range(3)],
                       [([0], "the connection ends within a message"), ([1], "the connection ends within a message"),
                        ([2], "")])

    def test_only_entries_with_a_report_have_their_bodies(self):
        """Without bodies, but for those of entries with a report. What breaks off on the way to one is asked again."""
        told = HEAD + chunks(failed(1, "why") + line(2)) + LAST
        with as_task(HEAD + chunks(line(0) + failed(1) + line(2)) + LAST, told) as (running, fake):
            entries, _ = entries_of(running)
            self.check("only the report is there", [(one.ticket, one.call.body, [answer.body for answer in one.answers])
                                                    for one in entries],
                       [(0, None, []), (1, b"why", [b"why", None]), (2, None, [])])
            self.check("what was asked", fake.asked, [f"{TARGET}0&bodies=none", "/_local/trace?from=1"])

    def test_a_report_that_breaks_off_is_asked_again(self):
        told = HEAD + chunks(failed(1, "why") + line(2)) + LAST
        with as_task(HEAD + chunks(line(0) + failed(1)), b"", HEAD + chunks(failed(1)), told[:len(HEAD) + 30],
                     HEAD + chunks(failed(1) + line(2)) + LAST, told) as (running, fake):
            self.check("a report that does not come", taken_later(running), ([0], "it has closed the connection"))
            self.check("one that breaks off", taken_later(running), ([], "the connection ends within a message"))
            self.check("its entry was not counted", running.next, 1)
            self.check("it comes the next time", [one.call.body for one in entries_of(running)[0]], [b"why", None])

    def test_a_service_that_has_no_report_to_give_gives_its_entry(self):
        others = [HEAD + chunks(failed(0)), HEAD + LAST] * 3
        with as_task(*others, HEAD + chunks(failed(0) + line(1)) + LAST) as (running, fake):
            self.check("a service that has no report to give", [taken_later(running) for _ in range(3)],
                       [([], "it does not give entry 0 again")] * 3)
            self.check("its entry comes without", taken_later(running), ([0, 1], ""))

    def test_a_silent_service_is_asked_again(self):
        """A service that is silent is asked again, and one that does not answer is lost."""
        answers = (HEAD + chunks(line(0)), HEAD + chunks(line(1) + line(2)[:9]), HEAD, HEAD + chunks(line(2)) + LAST)
        with following(*answers, silent=True, silence=1.0) as (running, server):
            self.check("each entry once", taken(running), ([0, 1, 2], ""))
            self.check("what was asked", server.asked, [f"{TARGET}{n}" for n in (0, 1, 2, 2)])
        with as_task(*answers, silent=True, silence=1.0) as (running, server):
            self.check("each entry once to a task", taken_later(running), ([0, 1, 2], ""))
            self.check("what it asked", server.asked, [f"{TARGET}{n}&bodies=none" for n in (0, 1, 2, 2)])

    def test_a_service_that_does_not_answer_is_lost(self):
        with following(b"", silent=True, silence=1.0) as (running, _):
            self.check("no answer", taken(running), ([], "no answer within 1 s"))
        with as_task(b"", silent=True, silence=1.0) as (running, _):
            self.check("no answer to a task", taken_later(running), ([], "no answer within 1 s"))

    def test_one_that_is_closed_ends_and_is_over(self):
        with following(HEAD, silent=True) as (running, server):
            came: List[Tuple[List[int], str]] = []
            thread = threading.Thread(target=lambda: came.append(taken(running)))
            thread.start()
            until(lambda: bool(server.held), 30)
            running.close()
            thread.join(10)
            self.check("one that is closed ends", came, [([], "")])
            self.check("and is over", taken(running), ([], ""))

    def test_a_wrong_service_is_told(self):
        for name, answer, wanted in (
            ("an answer that is none", b"HTTP/1.1 500 No\r\ncontent-length: 5\r\n\r\nworse",
             f"GET {TARGET}0: 500 worse"),
            ("another service", b"HTTP/1.1 404 No\r\ncontent-length: 0\r\n\r\n", f"GET {TARGET}0: 404 "),
            ("no HTTP", b"hello\r\n\r\n", "a response begins with HTTP/1.1 STATUS REASON"),
            ("no answer", b"", "it has closed the connection"),
            ("a line that is cut off", HEAD + chunks(line(0)[:-1]) + LAST, "its last line is cut off"),
            ("a line that is none", HEAD + chunks(b"{}\n") + LAST, "entry 0 of the trace: {} is not an entry"),
            ("another entry", HEAD + chunks(line(1)) + LAST, "entry 0 of the trace: its ticket is 1, and not 0"),
            ("another environment", HEAD + chunks(line(0).replace(b'"environment":1', b'"environment":2')) + LAST,
             "entry 0 of the trace: it names an environment that the configuration does not have"),
        ):
            with following(answer) as (running, _):
                self.check(name, taken(running), ([], wanted))
        with socket.create_server(("127.0.0.1", 0)) as free:
            port = free.getsockname()[1]
        self.check("no service", taken(Running(port, 1)), ([], "Connection refused"))

    def test_a_real_service_is_followed_to_its_end(self):
        service = Service({"account": "123456789012", "region": "us-east-1",
                           "functions": [{"name": "f", "ports": [0]}]})
        running = Running(service.port, 1)
        try:
            entries = running.entries()
            answer = ask(service.port, "PUT", "/2017-10-31/functions/f/concurrency",
                         json.dumps({"ReservedConcurrentExecutions": 0}))
            self.check("a reservation", answer[0], 200)
            first = next(entries)
            self.check("is an entry", (first.ticket, first.call, first.own and first.own.reserved),
                       (0, Call("reserve", function="f", reserved=0), 0))
            for _ in range(3):
                ask(service.port, "POST", "/2015-03-31/functions/f/invocations", "{}")
            came = [first, *(next(entries) for _ in range(3))]
            self.check("throttled invocations", [(one.ticket, one.call.function, one.own and one.own.word)
                                                 for one in came[1:]], [(n, "f", Word.THROTTLED) for n in (1, 2, 3)])
            self.check("as the history has them", came, entries_in(service.history()))
            self.check("how many", (running.next, service.stats()["entries"]), (4, 4))
            status, _ = service.stop()
            self.check("the stop, and the end", ([one.call.kind for one in entries], status), (["stop"], 0))
        finally:
            running.close()
            service.kill()
