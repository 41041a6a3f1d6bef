"""Checks tools/lambda_local/history: what is read of a trace, which files are scripts, and how a history is compared
with its replay. The program is LAMBDA_LOCAL_PROGRAM, else ./lambda_local."""
import contextlib
import io
import json
import os
import stat
import tempfile

from lambda_local.history.comparison import compared
from lambda_local.history.entries import Answer, Call, Entry, Phase, count_in, request_identifier
from lambda_local.history.reader import Reader, entries_of, entry_of, lines_of
from lambda_local.history.replay import Traced, entries_of_script
from lambda_local.history.script import Script
from lambda_local.history.shapes import NotTrace
from lambda_local.history.words import Word
from lambda_local.program import Fault
from tests import ROOT
from tests.library.cases import Case
from tests.library.timelines import ONE, PROGRAM, WHOLE

REQUEST = "00000000-0000-8000-8001-000000000001"
LINE = (b'{"answers":[{"answer":"deliver","body":"{}","deadline":4000,"invoke":1,"request":"' + REQUEST.encode()
        + b'","ticket":0}],"call":{"body":"{}","function":"f","kind":"invoke","qualified":false,"trace":"Root=1"},'
        b'"charged":1,"moment":1000,"phases":[{"deadline":4000,"environment":1,"invoke":1,"phase":"busy"}],"place":1,'
        b'"released":[],"request":"' + REQUEST.encode() + b'","ticket":1}\n')
ENTRY = Entry(1, 1000, Call("invoke", function="f", body=b"{}", trace="Root=1"),
              (Answer(0, Word.DELIVER, 4000, REQUEST, source=1, body=b"{}"),),
              (Phase(1, "busy", 4000, invoke=1),), (), REQUEST, 1, 1)
HISTORY = (f"form 2\n{WHOLE % 100}\n0 next 1\n10 invoke f - - =1\n# 1 0 deliver {REQUEST} 3010 =1\n"
           "20 response 1 1 =2\n# 2 1 output =2\n# 2 2 accepted\n")
# What is none of a trace: what is changed in the line above, and a part of what is said of it.
WRONG = {
    "no JSON": ((b'{"answers"', b"{answers"), "it is not JSON"),
    "a member that is unknown": ((b'"ticket":1}\n', b'"ticket":1,"x":1}\n'), "is not an entry"),
    "a member too few": ((b'"released":[],', b''), "is not an entry"),
    "members in another order": ((b'"place":1,"released":[]', b'"released":[],"place":1'), "is not an entry"),
    "a member twice": ((b'"place":1', b'"place":1,"place":1'), "an object has a member twice"),
    "a member twice in a call": ((b'"kind":"invoke"', b'"kind":"next","kind":"invoke"'), "has a member twice"),
    "something behind it": ((b'"ticket":1}\n', b'"ticket":1}}\n'), "after the object it goes on"),
    "a ticket that is a string": ((b'"ticket":1}\n', b'"ticket":"1"}\n'), "the ticket of an entry is '1'"),
    "a ticket that is true": ((b'"ticket":1}\n', b'"ticket":true}\n'), "the ticket of an entry is True"),
    "a moment below zero": ((b'"moment":1000', b'"moment":-1'), "the moment of an entry is -1"),
    "half a moment": ((b'"moment":1000', b'"moment":0.5'), "0.5 is not a whole number"),
    "a moment of 5,000 digits": ((b'"moment":1000', b'"moment":' + b"9" * 5000), "it is not JSON"),
    "a moment of 30 digits": ((b'"moment":1000', b'"moment":' + b"9" * 30), "the moment of an entry is 9999"),
    "no number": ((b'"moment":1000', b'"moment":NaN'), "NaN is not a whole number"),
    "5,000 levels": ((b'"call":{', b'"call":' + b"[" * 5000 + b"{"), "it is nested too deep"),
    "a call that is none": ((b'"kind":"invoke"', b'"kind":"dance"'), "the kind of a call is 'dance'"),
    "a call of no kind": ((b'"kind":"invoke"', b'"kind":["invoke"]'), "the kind of a call is ['invoke']"),
    "another call's kind": ((b'"kind":"invoke"', b'"kind":"next"'), "the kind of a call is 'next'"),
    "a call that is an answer": ((b'{"body":"{}","function":"f","kind":"invoke","qualified":false,"trace":"Root=1"}',
                                  b'{"answer":"done","ticket":1}'), "is not a call"),
    "another call's member": ((b'"function":"f"', b'"environment":1,"function":"f"'), "is not a call"),
    "no Base64": ((b'"body":"{}","function"', b'"bodyBase64":"-","function"'), "'-' is not Base64"),
    "half a character": ((b'"body":"{}","function"', b'"body":"\\ud83d","function"'), "has half a character"),
    "a name of two lines": ((b'"function":"f"', b'"function":"f\\ng"'), "the function of a call is "),
    "an answer that is none": ((b'"deliver"', b'"dance"'), "the answer of an answer is 'dance'"),
    "an answer that is a phase": ((b'"answers":[', b'"answers":[{"environment":1,"phase":"idle"},'),
                                  "is not an answer"),
    "another answer's reason": ((b'"answers":[', b'"answers":[{"answer":"refused","reason":"TIMEOUT","ticket":0},'),
                                "the reason of an answer is 'TIMEOUT'"),
    "an identifier that is none": ((b'-000000000001","ticket":0', b'-00000000001","ticket":0'),
                                   "the request of an answer is "),
    "a phase that is none": ((b'"busy"', b'"dozing"'), "the phase of a phase is 'dozing'"),
    "an idle one with a deadline": ((b'"phase":"busy"', b'"phase":"idle"'), "the phase of a phase is 'idle'"),
    "a reason that is none": ((b'"phases":[', b'"phases":[{"deadline":1,"environment":1,"phase":"closing","reason":"X"}'
                               b','), "the reason of a phase is 'X'"),
    "another ticket": ((b'"ticket":1}\n', b'"ticket":2}\n'), "its ticket is 2, and not 1"),
    "an environment that is not there": ((b'"environment":1', b'"environment":3'), "that the configuration does not"),
    "environment 0": ((b'"place":1', b'"place":0'), "that the configuration does not"),
    "tickets that are none": ((b'"released":[]', b'"released":[true]'), "these are not tickets"),
    "bytes": ((b'"f"', b'"\xff"'), "it is not JSON"), "nothing": ((LINE, b"\n"), "it is not JSON"),
    "no members": ((LINE, b"{}\n"), "{} is not an entry"),
    "a list": ((LINE, b"[]\n"), "is not an entry"),
}


def fault_of(read, *words):
    """The fault of a reader, as its status and its words, or as those alone."""
    try:
        seen = read(*words)
        return "is read" if not hasattr(seen, "__next__") else f"is read: {len(list(seen))}"
    except Fault as fault:
        return f"{fault.status}: {fault}"
    except NotTrace as fault:
        return str(fault)


def script(text, name="h"):
    return contextlib.closing(Script(name, text if isinstance(text, bytes) else text.encode()))


def program(folder, text):
    """A program that is this shell script."""
    path = os.path.join(folder, "program")
    with open(path, "w") as file:
        file.write(f"#!/bin/sh\n{text}\n")
    os.chmod(path, stat.S_IRWXU)
    return path


class Histories(Case):
    def test_an_entry_is_read_strictly(self):
        self.check("an entry", entry_of(LINE), ENTRY)
        self.check("without bodies", entry_of(LINE.replace(b'"body":"{}",', b"")), ENTRY._replace(
            call=ENTRY.call._replace(body=None), answers=(ENTRY.answers[0]._replace(body=None),)))
        self.check("with their lengths", entry_of(LINE.replace(b'"body":"{}",', b'"bodyLength":2,')), ENTRY._replace(
            call=ENTRY.call._replace(body=None, length=2), answers=(ENTRY.answers[0]._replace(body=None, length=2),)))
        self.check("bytes", entry_of(LINE.replace(b'"body":"{}","f', b'"bodyBase64":"/w==","f')).call.body, b"\xff")
        for name, ((old, new), words) in WRONG.items():
            self.check(f"the edit fits: {name}", old in LINE)
            seen = fault_of(Reader(2, 1).take, LINE.replace(old, new, 1))
            self.check(f"{name} is refused", words in seen and seen.startswith("entry 1 of the trace: "), shown=seen)
        self.check("a moment before the last one", fault_of(list, entries_of(
            [LINE, LINE.replace(b"1000", b"999").replace(b'"ticket":1}', b'"ticket":2}')], 2, 1)),
            "entry 2 of the trace: its moment 999 is before 1000, that of the entry before it")
        self.check("a line that is cut off is left out", list(lines_of(io.BytesIO(LINE + LINE[:50]))), [LINE])

    def test_words_and_identifiers_are_read_and_written(self):
        self.check("a word as text", (f"{Word.TOO_LARGE_OUTPUT}", "%s" % Word.ERROR, json.dumps(Word.OUTPUT)),
                   ("too-large-output", "error", '"output"'))
        self.check("the count of an identifier, and the identifier of a count", (count_in(REQUEST),
                                                                                 request_identifier(0, 1, 1)),
                   (1, REQUEST))
        self.check("the version takes the place of the salt's bits 12 to 15",
                   request_identifier(0x0123456789ABCDEF, 2, 255), "01234567-89ab-8def-8002-0000000000ff")

    def test_each_word_is_on_the_page_of_formats(self):
        with open(os.path.join(ROOT, "docs", "formats.md"), encoding="utf-8") as page:
            text = page.read()
        self.check("each word is on the page of formats", [str(word) for word in Word if f"`{word}" not in text], [])

    def test_the_objects_of_the_page_are_read(self):
        """The objects of docs/trace.md and of the worked traces are read."""
        with open(os.path.join(ROOT, "docs", "trace.md"), encoding="utf-8") as page:
            lines = [line for line in page if line.startswith('{"answers"')]
        self.check("objects of the page", len([entry_of(line.encode()) for line in lines]) == len(lines) > 5)

    def test_what_is_no_script_is_refused(self):
        for name, text, words in (
            ("no configuration", "hello\n", "2: configuration: NotJson"), ("nothing", "", "2: configuration: NotJson"),
            ("a list", "[]\n", "2: configuration: BadShape"),
            ("no functions", "form 2\n{}\n", "2: configuration: BadShape"),
            ("names that are numbers", ONE.replace('"f"', "5"), "2: configuration: BadShape"),
        ):
            with script(text) as one:
                self.check(f"{name} is refused", fault_of(lambda: one.configuration).startswith(words), True)

    def test_a_line_that_is_cut_is_left_out_of_a_script(self):
        for name, text, cut, left in (
            ("whole", HISTORY, None, HISTORY), ("cut in a line", HISTORY[:-1], 8, HISTORY[:HISTORY.rindex("# 2 2")]),
            ("of one line", "form 2", 1, ""), ("empty", "", None, ""),
            ("a long line", HISTORY + "x" * 100_000, 9, HISTORY),
        ):
            with script(text) as one:
                self.check(f"{name}: the line that is cut", one.leave_out_cut_line(), cut)
                self.check(f"{name}: what is left", "".join(f"{line.decode()}\n" for line in one.lines()), left)
        with script("a\r\nb\nc") as one:
            self.check("lines", (list(one.lines()), one.line(2), one.line(4)), ([b"a", b"b", b"c"], b"b", None))
        self.check("no file", fault_of(Script, "/nowhere/h"),
                   "2: /nowhere/h: No such file or directory: name a file with a history or a script")
        self.check("a folder", fault_of(Script, "/").startswith("2: /: Is a directory"), True)

    def test_the_entries_of_a_script_are_those_that_the_program_gives(self):
        with script(HISTORY) as one, tempfile.TemporaryDirectory() as folder:
            entries = list(entries_of_script(one, PROGRAM))
            self.check("the entries", [(entry.call.kind, entry.place, entry.released) for entry in entries],
                       [("next", None, ()), ("invoke", 1, ()), ("response", None, ())])
            line = LINE.replace(b'"ticket":1}', b'"ticket":0}')
            self.check("a saved trace", list(Traced(one, trace=io.BytesIO(line))), [ENTRY._replace(ticket=0)])
            for name, text, words in (
                ("another one", "cat >/dev/null; echo 'usage: x' >&2; exit 2",
                 "4: PROGRAM trace ended with status 2: us"),
                ("one that fails", "exit 3", "4: PROGRAM trace ended with status 3: nothing was said"),
                ("one that writes no trace", "echo hello", "3: entry 0 of the trace: it is not JSON"),
            ):
                other = program(folder, text)
                seen = fault_of(lambda: list(entries_of_script(one, other))).replace(other, "PROGRAM")
                self.check(f"a program: {name}", seen.startswith(words), shown=seen)
            self.check("none", fault_of(lambda: list(entries_of_script(one, "/nowhere/p"))),
                       "4: /nowhere/p could not be run: No such file or directory: name a program by --program or "
                       "LAMBDA_LOCAL_PROGRAM")
        with script(ONE + "\n0 next 1\n0 jump\n") as one:
            self.check("a line that is none", fault_of(lambda: list(entries_of_script(one, PROGRAM))).startswith(
                "2: h: line 3 is not a call: `0 jump`"), True)

    def test_a_history_is_compared_with_its_replay(self):
        for name, text, words in (
            ("the same", HISTORY, None), ("a script", ONE + "\n0 tick\n",
                                          "line 2: the history ends here, but the replay also answers `0 0 done`"),
            ("another answer", HISTORY.replace("output =2", "output =3"),
             "line 7: the history has `2 1 output =3`, but the replay answers `2 1 output =2`"),
            ("one too many", HISTORY + "# 9 9 done\n",
             "line 9: the history has `9 9 done`, but the replay ends before it"),
        ):
            with script(text) as one:
                self.check(f"a history: {name}", compared(one, PROGRAM).difference, words)
        with script(HISTORY.replace("us-east-2", "US")) as one:
            self.check("one that the program refuses", fault_of(compared, one, PROGRAM).startswith(
                "2: h: line 2, the configuration: "), True)
        with script(HISTORY) as one:
            self.check("how many", compared(one, PROGRAM), (None, 3, 3))
