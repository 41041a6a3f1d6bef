"""Checks what lambda_local timeline says of histories, also of edited and of cut ones, which part of them it shows, and
the faults that it names. The program is LAMBDA_LOCAL_PROGRAM, else ./lambda_local."""
import os
import re
import subprocess
import tempfile
import threading
import unittest.mock
import xml.etree.ElementTree as ElementTree
from typing import Any, List

from lambda_local.service import Service, ask
from lambda_local.timeline import command
from lambda_local.timeline.rest import Rest
from lambda_local.timeline.window import Window
from tests import ROOT
from tests.library.records import text_of
from tests.library.timelines import TimelineCase, NOWHERE, ONE, PROGRAM, WHOLE, calls_of, events, run

HISTORY = ("form 2\n" + WHOLE % 1000000
           + "\n0 next 1\n10 invoke f - - =1\n# 1 0 deliver 00000000-0000-8000-8001-000000000001 3010 =1\n"
           "## 5000 expire 1\n# 2 1 timeout\n5000 tick\n# 3 3 done\n5000 next 1\n5001 invoke f - - =2\n"
           "# 5 4 deliver 00000000-0000-8000-8001-000000000002 8001 =2\n5002 response 1 2 =3\n# 6 5 output =3\n# 6 6 "
           "accepted\n")


def tree_of(page):
    return ElementTree.fromstring(page.replace("<!DOCTYPE html>\n", ""))


# Faults: a name, the arguments, the input, the status, and what the message says.
FAULTS = (
    ("no JSON", (), "hello\n", 2, "configuration: NotJson: the first line of a script is its configuration"),
    ("nothing", (), "", 2, "configuration: NotJson"),
    ("form 2 alone", (), "form 2\n", 2, "configuration: NotJson"),
    ("no functions", (), "{}\n", 2, "configuration: BadShape"),
    ("a list", (), "[]\n", 2, "configuration: BadShape"),
    ("no call", (), ONE + "\n0 next 1\n0 jump\n", 2, "-: line 3 is not a call: `0 jump`: after its moment it"),
    ("no environment", (), ONE + "\n\n0 next 2\n", 2, "script: line 3"),
    ("no function", (), ONE + "\n0 invoke g - - =\n", 2, "script: line 2"),
    ("a leading zero", (), ONE + "\n00 next 1\n", 2, "script: line 2"),
    ("two spaces", (), ONE + "\n0  next 1\n", 2, "script: line 2"),
    ("a moment that is too large", (), ONE + "\n9007199254740992 tick\n", 2, "script: line 2"),
    ("a count that is too large", (), ONE + "\n0 response 1 281474976710656 =x\n", 2, "script: line 2"),
    ("a reservation in form 1", (), ONE + "\n0 reserve f 1\n", 2, "only form 2 has reserve"),
    ("a configuration that the program refuses", (), ONE.replace("us-east-2", "US") + "\n0 tick\n", 2,
     "-: line 1, the configuration: region"),
    ("no file", ("/nowhere/script.txt",), None, 2, "/nowhere/script.txt: No such file or directory"),
    ("no program", ("--program", "/nowhere/program"), ONE + "\n0 tick\n", 4,
     "name one by --program or LAMBDA_LOCAL_PROGRAM"),
    ("a program that says nothing", ("--program", "/bin/true"), ONE + "\n0 tick\n", 3,
     "the trace has no entry for the call of line 2"),
    ("a program that fails", ("--program", "/bin/false"), ONE + "\n0 tick\n", 4,
     "/bin/false trace ended with status 1: nothing was said"),
    ("no place to write to", ("-o", "/nowhere/page.html"), ONE + "\n0 tick\n", 4, "/nowhere/page.html"),
    ("a device that is full", ("-o", "/dev/full"), ONE + "\n0 tick\n", 4, "No space left on device"),
    ("no answers", ("--answers", "/nowhere/answers"), ONE + "\n0 tick\n", 2, "/nowhere/answers"),
    ("two forms", ("--html", "--text"), ONE + "\n", 2, "not allowed with"),
    ("no room", ("--limit", "0"), ONE + "\n", 2, "--limit is at least 1"),
    ("a window that ends before it begins", ("--from", "5", "--to", "4"), ONE + "\n", 2, "--to is before --from"),
    ("the same in seconds", ("--from", "+1.5", "--to", "+1.25"), ONE + "\n", 2, "--to is before --from"),
    ("a moment that is none", ("--from", "1.5"), ONE + "\n", 2,
     "'1.5' is not a moment: write milliseconds as in the history, such as"),
    ("a moment in words", ("--to", "yesterday"), ONE + "\n", 2, "'yesterday' is not a moment"),
    ("a folder", ("/",), None, 2, "/: Is a directory"),
    ("a script that looks like a history", (), f"form 2\n{WHOLE % 100}\n0 tick\n0 tick\n", 2, "add --script"),
    ("no program, and a history", ("--program", "/nowhere/program"), HISTORY, 4,
     "name one by --program or LAMBDA_LOCAL_PROGRAM"),
    ("a history that the program refuses", (), HISTORY.replace("us-east-2", "US"), 2,
     "-: line 2, the configuration: region"),
)


class TimelineHistory(TimelineCase):
    def test_a_history_is_drawn_as_its_replay_is(self):
        """A history has its answers in it; it is drawn as its replay is."""
        replayed = (ONE + "\n0 next 1\n10 invoke f - - =1\n5000 tick\n5000 next 1\n"
                    "5001 invoke f - - =2\n5002 response 1 2 =3\n")
        text = HISTORY
        for form in ("text", "trace", "svg"):
            ours, theirs = run(f"--{form}", script=text), run(f"--{form}", script=replayed)
            self.check(f"a history as its replay: {form}", ours == theirs and ours[0] == 0, shown=ours[2] + theirs[2])

    def test_a_history_that_is_cut_anywhere_is_drawn(self):
        text = HISTORY
        for cut in range(text.index("\n0 next") + 1, len(text)):
            status, _, said = run("--trace", script=text[:cut]) if cut % 7 == 0 else (0, "{}", "")
            if status:
                self.check(f"a history that is cut after {cut} bytes", False, shown=said)
                break
        else:
            self.check("a history that is cut anywhere", True)

    def test_a_saved_trace_is_drawn_and_a_wrong_one_is_told(self):
        replayed = (ONE + "\n0 next 1\n10 invoke f - - =1\n5000 tick\n5000 next 1\n"
                    "5001 invoke f - - =2\n5002 response 1 2 =3\n")
        answers = subprocess.run([PROGRAM, "trace"], input=replayed.encode(), capture_output=True).stdout
        with tempfile.TemporaryDirectory() as folder:
            path = os.path.join(folder, "trace.jsonl")
            open(path, "wb").write(answers)
            self.check("a trace from a file",
                       run("--answers", path, script=replayed, environment=NOWHERE) == run(script=replayed))
            lines = answers.splitlines(True)
            for name, wrong, words in (
                ("that answers what is not open",
                 answers.replace(b'"answer":"timeout","ticket":1', b'"answer":"timeout","ticket":9'),
                 "entry 2 answers call 9, which is not open"),
                ("that is not whole", b"".join(lines[:-1]), "the trace has no entry for the call of line 7"),
                ("with a gap", b"".join(lines[:2] + lines[3:]), "entry 2 of the trace: its ticket is 3, and not 2"),
                ("that goes on", answers + lines[-1].replace(b'"ticket":6}', b'"ticket":7}'),
                 "entry 7 of the trace is of no call: it is of another script"),
                ("that is none", b"hello\n", "entry 0 of the trace: it is not JSON"),
            ):
                open(path, "wb").write(wrong)
                status, _, said = run("--answers", path, script=replayed)
                self.check(f"a trace {name}", status == 3 and words in said, shown=said)

    def test_the_history_of_a_running_service_is_drawn(self):
        """A running service's history: two functions, a timeout, a failure, a throttle; open at its end."""
        made = Service({"account": "123456789012", "region": "us-east-2", "functions": [
            {"name": "quick", "ports": [0]}, {"name": "slow", "ports": [0], "timeout": 1}]})
        first, second = (function["ports"][0] for function in made.configuration["functions"])
        runtime = "/2018-06-01/runtime/invocation/"

        def serve():
            for outcome in ("response", "error"):
                _, headers, _ = ask(first, "GET", runtime + "next")
                ask(first, "POST", f"{runtime}{headers['lambda-runtime-aws-request-id']}/{outcome}", b'"ok"')
        try:
            threads = [threading.Thread(target=serve), threading.Thread(target=ask,
                                                                        args=(second, "GET", runtime + "next"))]
            for thread in threads:
                thread.start()
            for name in ("quick", "slow", "quick"):
                ask(made.port, "POST", f"/2015-03-31/functions/{name}/invocations", b"{}")
            for thread in threads:
                thread.join()
            text = made.history()
        finally:
            made.stop()
        status, trace, said = run("--trace", script=text)
        self.check("a service's history", status == 0, shown=said)
        self.check("a service's history: a span a call", len(events(trace, "call")) == calls_of(text))
        names = [event["name"] for event in events(trace, "call") if event["name"].startswith("invoke")]
        self.check("a service's history: the outcomes",
                   names == ["invoke quick: output", "invoke slow: timeout", "invoke quick: error"], shown=str(names))
        self.check("a service's history: the reset",
                   [event["name"] for event in events(trace, "reset")] == ["reset: TIMEOUT"])
        for form in ("text", "trace", "html"):
            status, shown, said = run(f"--{form}", script=text)
            shown = shown.replace(" Its replay gives the same answers.", " ")
            self.check(f"a service's history as its replay: {form}",
                       (status, shown, said) == run(f"--{form}", "--script", script=text))
        self.relative_axis(text)

    def relative_axis(self, text):
        """In a history of the clock, seconds from the start and the clock's milliseconds choose the same."""
        first = int(text.split("\n")[2].split(" ")[0])
        for form in ("text", "trace", "svg"):
            ours, theirs = (run(f"--{form}", "--from", "+1", script=text),
                            run(f"--{form}", "--from", str(first + 1000), script=text))
            self.check(f"a second after the start, as {form}",
                       ours == theirs and ours[0] == 0 and ours != run(f"--{form}", script=text), shown=ours[2])
        axis = re.findall(r'text-anchor="middle">([0-9.]+)<', run("--svg", "--from", "+1", script=text)[1])
        self.check("the axis counts from the start of the history", axis and min(map(float, axis)) >= 1,
                   shown=str(axis[:3]))
        self.check("both axes in one", run("--from", "+0", "--to", str(first), script=text)[0] == 0)
        status, _, said = run("--from", "+1", "--to", str(first + 999), script=text)
        self.check("an end before the beginning, on two axes", status == 2 and "--to is before --from" in said,
                   shown=said)

    def test_a_history_whose_replay_differs_says_so_and_where(self):
        """If a history's replay answers otherwise, the page and the text say so, and where."""
        without_expiry = HISTORY.replace("## 5000 expire 1\n# 2 1 timeout\n5000 tick\n# 3 3 done\n",
                                         "5000 tick\n# 2 2 done\n")
        without_expiry = without_expiry.replace("# 5 4", "# 4 3").replace("# 6 5", "# 5 4").replace("# 6 6", "# 5 5")
        with tempfile.TemporaryDirectory() as folder:
            path = os.path.join(folder, "history.txt")
            for name, text, words in (
                ("an answer", HISTORY.replace("# 6 5 output =3", "# 6 5 output =4"),
                 "line 14: the history has `6 5 output =4`, but the replay answers `6 5 output =3`"),
                ("a call", HISTORY.replace("5002 response 1 2 =3", "5002 response 1 2 =4"),
                 "line 14: the history has `6 5 output =3`, but the replay answers `6 5 output =4`"),
                ("an expiry that is left out", without_expiry,
                 "line 7: the history has `2 2 done`, but the replay answers `2 1 timeout`"),
                ("a configuration", HISTORY.replace('"timeout":3', '"timeout":4'),
                 "but the replay answers `1 0 deliver"),
                ("an answer that is none", HISTORY.replace("# 3 3 done", "# 3 3 dined"),
                 "line 9: the history has `3 3 dined`, but the replay answers `3 3 done`"),
                ("a gap", HISTORY.replace("# 3 3 done", "# 5 5 done"), "line 9: the history has `5 5 done`"),
                ("answers that are left out", HISTORY[:HISTORY.index("5002 response")] + "5002 response 1 2 =3\n",
                 "line 13: the history ends here, but the replay also answers `6 5 output =3`"),
            ):
                open(path, "w").write(text)
                for given in ((path,), ()):
                    told = f"{name}{'' if given else ', piped'}"
                    script = None if given else text
                    status, shown, said = run("--text", *given, script=script)
                    last = shown.splitlines()[-1]
                    self.check(f"edited: {told}: text", status == 0 and not said and words in last
                               and last.startswith("This history differs from its replay: "), shown=last + said)
                    status, page, said = run("--html", *given, script=script)
                    notes = [note for note in tree_of(page).iter("{http://www.w3.org/1999/xhtml}p")
                             if note.get("class") == "differs"]
                    self.check(f"edited: {told}: page",
                               status == 0 and len(notes) == 1 and words in notes[0].text and words in said, shown=said)
                    status, _, said = run("--trace", *given, script=script)
                    self.check(f"edited: {told}: trace", status == 0 and words in said, shown=said)

    def test_a_history_that_agrees_with_its_replay_says_so(self):
        page, text = run("--html", script=HISTORY), run("--text", script=HISTORY)
        self.check("a history as it is",
                   "Its replay gives the same answers." in page[1] and "differs" not in text[1]
                   and page[2] == text[2] == "")

    def test_a_line_that_is_cut_off_is_left_out(self):
        page, said = run("--html", script=HISTORY[:-1])[1:]
        self.check("a line that is cut off is left out", "line 15 has no line end, so it may be cut off" in said
                   and "line 14: the history ends here, but the replay also answers `6 6 accepted`" in page, shown=said)

    def test_what_up_does_itself_is_shown_on_request_alone(self):
        """What lambda_local up does itself is shown on request alone."""
        up = ONE.replace('"ports":[9001]', '"ports":[9001],"extensions":["lambda_local.up"]')
        script = (up + "\n0 register 1 =lambda_local.up s -\n1 register 1 =other s -\n2 ext-next 1 1\n"
                  "3 ext-next 1 2\n4 next 1\n"
                  "5 invoke f - - =1\n6 response 1 1 =2\n7 next 1\n8 spindown 1\n9 ext-next 1 2\n9 ext-next 1 1\n")
        for form in ("text", "html", "svg", "trace"):
            status, shown, said = run(f"--{form}", script=script)
            self.check(f"hidden: {form}", status == 0 and "lambda_local.up" not in shown and "other" in shown,
                       shown=said)
            self.check(f"hidden: --all, {form}", "lambda_local.up" in run(f"--{form}", "--all", script=script)[1])
        calls = lambda *more: len(events(run("--trace", *more, script=script)[1], "call"))
        self.check("hidden: the calls", (calls(), calls("--all")) == (8, 11), shown=f"{calls()} {calls('--all')}")
        self.check("hidden calls do not count for --limit", calls("--limit", "8") == 8)

    def test_each_line_has_the_moment_at_which_it_happened(self):
        """Each line has the moment at which it happened, also if a call made it that is not shown."""
        up = ONE.replace('"ports":[9001]', '"ports":[9001],"extensions":["lambda_local.up"]')
        script = (up + "\n0 register 1 =lambda_local.up s -\n1 ext-next 1 1\n2 next 1\n3 invoke f - - =1\n"
                  "60 ext-exit-failure 1 1 =E\n70 next 1\n80 register 1 =lambda_local.up s -\n90 ext-next 1 2\n"
                  "95 spindown 1\n")
        shown = run("--text", script=script)[1].splitlines()
        self.check("moments of the text", [line.split(" ms  ")[0].strip() for line in shown],
                   "2 2 3 3 3 60 60 60 70 90 95 95 95".split(), shown="\n".join(shown))
        found = re.findall(r"(\d+) ms  caller 1: invoke f, call 3, answered after (\d+) ms", "\n".join(shown))
        self.check("an answer comes as long after its call as its line says", found, [("60", "57")])

    def test_a_report_with_a_type_is_told_as_up_tells_it(self):
        """A report with a type is told as lambda_local up tells it; any other as it is."""
        python = ('{"errorMessage":%20"\'x\'",%20"errorType":%20"KeyError",%20"requestId":%20"1",%20"stackTrace":'
                  '%20["%20%20File%20\\"/at/app.py\\",%20line%207,%20in%20run\\n"]}')
        for said, told in ((python, "KeyError: 'x' (app.py:7)"), ('{"errorMessage":"no"}', '{"errorMessage":"no"}'),
                           ('{"errorType":"A.B","errorMessage":"\\u0007"}', "A.B: \\x07"),
                           ('{"errorType":', '{"errorType":'), ('{"errorType":5}', "5")):
            shown = run("--text", script=f"{ONE}\n0 next 1\n1 invoke f - - =1\n2 failure 1 1 ={said}\n")[1]
            self.check(f"a report: {told}", (shown.count(f"bytes: {told}: accepted"),
                                             shown.count(f"error {told}\n")) == (1, 1), shown=shown)

    def test_failed_calls_are_listed_with_links_to_their_places(self):
        """Failed calls are listed on the page, each with a link to its place."""
        script = (ONE.replace('"region"', '"maxEntries":13,"region"')
                  + "\n0 next 1\n1 invoke f - - =1\n2 invoke f - - =2\n"
                  "3 failure 1 1 =<no>\n4 next 1\n5 invoke f - - =3\n6 response 1 9 =4\n4000 tick\n4001 invoke f - - "
                  "=5\n4002 tick\n")
        page = run("--html", script=script)[1]
        tree = tree_of(page)
        links = [link for link in tree.iter("{http://www.w3.org/1999/xhtml}a")]
        words = ["".join(link.itertext()) for link in links]
        self.check("failed: what is listed", words == [
            "2 ms: invoke f: throttled LocalEnvironmentLimitExceeded", "3 ms: invoke f: error <no>",
            "6 ms: response to request 9: refused BadId", "4,000 ms: invoke f: timeout",
            "4,002 ms: tick: the journal is full"], shown=str(words))
        places = {element.get("id"): element for element in tree.iter("{http://www.w3.org/2000/svg}g")
                  if element.get("id")}
        self.check("failed: each link leads to its call",
                   sorted(link.get("href")[1:] for link in links) == sorted(places),
                   shown=str(sorted(places)))
        titles = [places[link.get("href")[1:]].find("{http://www.w3.org/2000/svg}title").text for link in links[:4]]
        answers = [title.split("\n")[-2].split(" ")[0] for title in titles]
        self.check("failed: its place is that of the call", answers == ["throttled", "error", "refused", "timeout"],
                   shown=str(titles))
        order = [page.index(part) for part in ('class="legend"', "<h2>Failed", "<figure>", "<h2>Counts")]
        self.check("failed: before the drawing, as the legend", order == sorted(order))
        self.check("failed: none", "<h2>Failed" not in run("--html", script=ONE + "\n0 tick\n")[1])
        said = run("--html", "--from", "7", script=script)[2]
        self.check("failed: those that are left out are counted", "3 of them failed, the first at 2 ms" in said,
                   shown=said)

    def test_faults_are_told_in_a_line(self):
        for name, arguments, script, wanted, words in FAULTS:
            status, _, said = run(*arguments, script=script)
            self.check(f"fault: {name}", status == wanted and words in said and "Traceback" not in said,
                       shown=f"status {status}: {said}")

    def test_a_fault_leaves_the_page_as_it_was(self):
        with tempfile.TemporaryDirectory() as folder:
            path = os.path.join(folder, "page.html")
            self.check("a page", run("-o", path, script=ONE + "\n0 tick\n")[0] == 0
                       and open(path).read().startswith("<!DOCTYPE html>"))
            before = open(path).read()
            self.check("a fault leaves the page as it was", run("-o", path, script=ONE + "\n0 tock\n")[0] == 2
                       and open(path).read() == before and os.listdir(folder) == ["page.html"])

    def test_the_ending_of_the_file_names_the_form(self):
        with tempfile.TemporaryDirectory() as folder:
            for ending, beginning in ((".json", '{"displayTimeUnit"'), (".svg", "<svg "), (".txt", "      0 ms")):
                path = os.path.join(folder, "other" + ending)
                self.check(f"the form of {ending}",
                           run("-o", path, script=ONE + "\n0 tick\n")[0] == 0
                           and open(path).read().startswith(beginning))

    def test_the_help_is_printed(self):
        status, said, _ = run("--help")
        self.check("--help", status == 0 and all(word in said for word in (
            "--text", "--trace", "--html", "--svg", "--program", "--answers", "--script", "--limit", "--from", "--to",
            "--all", "--live", "--scale", "-o FILE")))

    def test_what_comes_after_the_window_is_counted_as_if_it_was_followed(self):
        """What comes after the window of a log is counted as it would be if all of it was followed."""
        path = os.path.join(ROOT, "tests", "compatibility", "1.0", "histories", "many.txt")
        moments = sorted({int(line.split()[0]) for line in text_of(path).splitlines()[2:] if line[:1].isdigit()})
        begin, wrong, counted = moments[0], [], []

        def shown(words, quick):
            written: List[str] = []
            said: List[str] = []
            closing: List[Any] = []
            with unittest.mock.patch.object(Rest, "take_all", lambda *_: counted.append(1)) if quick is None else (
                    unittest.mock.patch.object(Window, "is_over", quick and Window.is_over)):  # type: ignore[arg-type]
                command.run(command.arguments([*words, "--program", PROGRAM, path]), written.append, closing,
                            said.append)
            for close in closing:
                close()
            return "".join(written), said
        for words in (*(["--limit", str(limit)] for limit in (1, 2, 3, 5, 8, 13, 40, 100, 400)),
                      *(["--to", str(moment)] for moment in moments[::max(1, len(moments) // 9)]),
                      ["--limit", "7", "--all"], ["--from", f"+{(moments[len(moments) // 2] - begin) / 1000:.3f}",
                                                  "--limit", "9"]):
            if shown(words, True) != shown(words, False):
                wrong.append(words)
        self.check("with each of these limits", wrong, [])
        shown(["--limit", "3"], None)
        self.check("it is not followed", len(counted), 1)

    def test_what_is_left_out_is_said_in_each_form(self):
        """What is left out is said, and the rest is drawn, in each form."""
        script = ONE + "\n" + "".join(f"{10 * i} tick\n" for i in range(50))
        shown = {"html": lambda page: page.count('<g class="call '), "svg": lambda page: page.count('<g class="call '),
                 "text": lambda text: text.count("tick, call"), "trace": lambda text: len(events(text, "call"))}
        for arguments, drawn, words in (
            (("--limit", "20"), 20, "Left out: 30 calls from 200 ms on"),
            (("--from", "100"), 40, "Left out: 10 calls before 100 ms"),
            (("--from", "+0.1"), 40, "Left out: 10 calls before 100 ms"),
            (("--to", "100"), 11, "Left out: 39 calls from 110 ms on"),
            (("--to", "+0.1"), 11, "Left out: 39 calls from 110 ms on"),
            (("--from", "100", "--to", "200", "--limit", "5"), 5,
             "Left out: 10 calls before 100 ms and 35 calls from 150 ms on"),
            (("--scale", "time"), 50, ""),
            (("--from", "9000"), 0, "Left out: 50 calls before 9,000 ms"),
        ):
            for form, count in shown.items():
                status, page, said = run(f"--{form}", *arguments, script=script)
                name = f"{' '.join(arguments)}, {form}"
                self.check(f"{name}: {drawn} calls", status == 0 and count(page) == drawn,
                           shown=f"{count(page)} {said}")
                self.check(f"{name}: what is left out",
                           words in said and ("Left out" in page) == (bool(words) and form == "html"), shown=said)
                if form in ("html", "svg"):
                    try:
                        ElementTree.fromstring(page.replace("<!DOCTYPE html>\n", ""))
                    except ElementTree.ParseError as fault:
                        self.check(f"{name}: XML", False, shown=str(fault))

    def test_a_thousand_calls_are_drawn_without_a_limit(self):
        shown = {"html": lambda page: page.count('<g class="call '), "svg": lambda page: page.count('<g class="call '),
                 "text": lambda text: text.count("tick, call"), "trace": lambda text: len(events(text, "call"))}
        many = ONE.replace('"region"', '"maxEntries":9999,"region"') + "\n" + "".join(f"{i} tick\n"
                                                                                      for i in range(1100))
        self.check("without --limit, 1,000 calls are drawn, and all are in the text and the trace",
                   [count(run(f"--{form}", script=many)[1]) for form, count in shown.items()] == [1000, 1000, 1100,
                                                                                                  1100])

    def test_of_what_lasts_the_part_in_the_window_is_drawn(self):
        """Of what lasts, that of which a part lies in the window is drawn."""
        script = ONE + "\n0 next 1\n" + "".join(f"{i} tick\n" for i in range(1, 50)) + "60 invoke f - - =1\n"
        page = run("--html", "--from", "40", "--to", "45", script=script)[1]
        self.check("a call that waits all through a window is drawn", page.count('<g class="call ') == 7)
        trace = run("--trace", "--from", "40", "--to", "45", script=script)[1]
        self.check("and is in the trace",
                   [event["name"] for event in events(trace, "call")].count("next: deliver") == 1)
        self.check("as is the phase", [event["name"] for event in events(trace, "phase")] == ["Idle"],
                   shown=str(events(trace, "phase")))
        text = run("--from", "60", script=script)[1]
        self.check("the text has what happens in the window", "answered after 60 ms: deliver" in text
                   and "tick" not in text,
                   shown=text)

    def test_a_call_whose_answer_comes_later_does_not_look_finished(self):
        """A call whose answer comes after what is shown does not look finished."""
        script = ONE + "\n0 next 1\n10 invoke f - - =1\n20 tick\n2000 response 1 1 =2\n2100 next 1\n"
        for window, where in ((("--to", "1000"), "1000"), (("--from", "15", "--to", "1000"), "1000"),
                              (("--limit", "3"), "2000")):
            name, last = " ".join(window), run(*window, script=script)[1].splitlines()[-1].strip()
            self.check(f"{name}: the text ends with the call that waits",
                       last == f"{where} ms  caller 1: invoke f, call 1, "
                       "still waits; answered at 2000 ms, after what is shown", shown=last)
            for form in ("svg", "html"):
                page = run(f"--{form}", *window, script=script)[1]
                seen = [kind for kind, title in re.findall(r'<g class="call (\w+)"[^>]*><title>([^<]*)', page)
                        if "invoke f" in title]
                self.check(f"{name}: it is drawn as open, {form}", seen == ["open"], shown=seen)
                self.check(f"{name}: no label has its answer, {form}", ">invoke f: output<" not in page)
        whole = run("--to", "2000", script=script)[1]
        self.check("a call that is answered at the last moment is whole",
                   "still waits" not in whole and "answered after 1,990 ms: output 2" in whole, shown=whole)
        late = run("--to", "1000", script=ONE + "\n0 next 1\n10 invoke f - - =1\n2000 tick\n")[1]
        self.check("one that is never answered only waits",
                   late.splitlines()[-1].strip() == "1000 ms  caller 1: invoke f, call 1, still waits", shown=late)
