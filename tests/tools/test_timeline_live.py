"""Checks lambda_local timeline --live: the page of a running service, who may ask for it, what it shows after many
calls and when the service goes, and how it ends. The program is LAMBDA_LOCAL_PROGRAM, else ./lambda_local. Ends with 'N
passed, M failed'."""
import contextlib
import json
import shutil
import signal
import subprocess
import tempfile
import threading
import time
import xml.etree.ElementTree as ElementTree

from lambda_local.service import Service, ask, free_ports
from tests.library.threads import together
from tests.library.timelines import TimelineCase, ENVIRONMENT, TOOL, run

SVG = "{http://www.w3.org/2000/svg}"
CONFIGURATION = {"account": "123456789012", "region": "us-east-2",
                 "functions": [{"name": "f", "ports": [0], "timeout": 600}]}
PATIENCE = 120  # seconds until something has to be shown: most of them on a machine that does much else


class Live:
    """A service, and the tool that shows it."""

    def __init__(self, *arguments, configuration=CONFIGURATION):
        self.service = Service(configuration)
        self.runtime = self.service.configuration["functions"][0]["ports"][0]
        self.tool = subprocess.Popen([*TOOL, "--live", self.service.endpoint_url, *arguments], stdout=subprocess.PIPE,
                                     stderr=subprocess.PIPE, text=True, env=ENVIRONMENT)
        assert self.tool.stdout
        self.line = self.tool.stdout.readline()
        self.port = int(self.line.split(" ")[0].rstrip("/").rpartition(":")[2])
        self.version = 0

    def invoke(self, payload=b"{}"):
        return ask(self.service.port, "POST", "/2015-03-31/functions/f/invocations", payload)

    def reserve(self, count):
        ask(self.service.port, "PUT", "/2017-10-31/functions/f/concurrency",
            json.dumps({"ReservedConcurrentExecutions": count}))

    def serve(self, response=b'"ok"'):
        """Does what a runtime does, once."""
        _, headers, _ = ask(self.runtime, "GET", "/2018-06-01/runtime/invocation/next")
        ask(self.runtime, "POST",
            f"/2018-06-01/runtime/invocation/{headers['lambda-runtime-aws-request-id']}/response", response)

    def call(self, payload=b"{}", response=b'"ok"'):
        thread = threading.Thread(target=self.serve, args=(response,))
        thread.start()
        answer = self.invoke(payload)
        thread.join()
        return answer

    def get(self, path, headers={}):
        return ask(self.port, "GET", path, headers=headers)

    def until(self, shows):
        """What is drawn, once it shows something; asked as the page asks."""
        end = time.monotonic() + PATIENCE
        drawn = ""
        while time.monotonic() < end:
            status, _, body = self.get(f"/drawing?after={self.version}")
            if status == 200:
                news = json.loads(body)
                self.version, drawn = news["version"], news["drawn"]
                if shows(drawn):
                    return drawn
            time.sleep(0.1)
        return drawn

    def end(self, number=signal.SIGINT):
        """The status and standard error of the tool, which is asked to end."""
        self.tool.send_signal(number)
        _, said = self.tool.communicate(timeout=PATIENCE)
        return self.tool.returncode, said

    def close(self):
        if self.tool.poll() is None:
            self.tool.kill()
            self.tool.communicate()
        if self.service.process.poll() is None:
            self.service.stop()
        self.service.kill()


def live(*arguments, **more):
    return contextlib.closing(Live(*arguments, **more))


def parts_of(drawn):
    """The page's part as a tree: it has to be XML, whatever the payloads are."""
    return ElementTree.fromstring(f'<div xmlns="http://www.w3.org/1999/xhtml">{drawn}</div>')


def calls_of(drawn):
    return [group for group in parts_of(drawn).iter(SVG + "g") if group.get("class", "").startswith("call ")]


def refused(port):
    try:
        ask(port, "GET", "/", timeout=5)
    except OSError:
        return True
    return False


class TimelineLive(TimelineCase):
    def test_the_live_page_shows_an_invocation_and_CtrlC_ends_it_in_order(self):
        with live() as page:
            wanted = f"http://127.0.0.1:{page.port}/ shows {page.service.endpoint_url}, until Ctrl-C\n"
            self.check("the address is printed", page.line == wanted, shown=page.line)
            status, headers, body = page.get("/")
            text = body.decode()
            self.check("the page", status == 200 and headers["content-type"].startswith("text/html")
                       and "No calls yet." in text,
                       shown=text[-500:])
            ElementTree.fromstring(text.replace("<!DOCTYPE html>\n", ""))
            policy = headers["content-security-policy"]
            self.check("the page runs its own script alone", "default-src 'none'; script-src 'self';" in policy,
                       shown=policy)
            self.check("its script", page.get("/live.js")[0] == 200 and b"setTimeout" in page.get("/live.js")[2])
            self.check("another path", page.get("/other")[0] == 404)
            self.check("an invocation is answered", page.call(b'"<script>alert(1)</script>&"',
                                                              b'"</title><b>"')[0] == 200)
            drawn = page.until(lambda drawn: "\noutput" in drawn)
            self.check("it appears", "\noutput" in drawn and "3 calls, 1 of them invocations" in drawn,
                       shown=drawn[:300])
            names = {element.tag.split("}")[-1] for element in parts_of(drawn).iter()}
            self.check("payloads are escaped", "script" not in names and "b" in names
                       and "&lt;script&gt;alert(1)" in drawn)
            self.check("nothing new", page.get(f"/drawing?after={page.version}")[0] == 204)
            status, said = page.end()
            self.check("Ctrl-C ends it in order", (status, said) == (0, ""), shown=f"{status} {said}")
            self.check("and its port", refused(page.port))

    def test_SIGTERM_ends_it_in_order(self):
        with live() as page:
            self.check("SIGTERM as well", page.end(signal.SIGTERM) == (0, ""))

    def test_the_page_is_for_a_browser_on_this_machine_alone(self):
        """The page is for a browser on this machine, and for no other site in it."""
        with live() as page:
            own = f"http://127.0.0.1:{page.port}"
            for name, headers, status in (
                ("no browser", {}, 200), ("its own origin", {"Origin": own}, 200),
                ("a person who opens it", {"Sec-Fetch-Site": "none"}, 200),
                ("its own script", {"Sec-Fetch-Site": "same-origin", "Origin": own}, 200),
                ("localhost", {"Host": "localhost"}, 200),
                ("localhost with a port", {"Host": f"LOCALHOST:{page.port}"}, 200),
                ("an address", {"Host": "10.0.0.1:80"}, 200), ("an address of version 6", {"Host": "[::1]:80"}, 200),
                ("another site", {"Origin": "http://example.com"}, 403),
                ("another port", {"Origin": "http://127.0.0.1:1"}, 403),
                ("an origin without a name", {"Origin": "null"}, 403), ("an empty origin", {"Origin": ""}, 403),
                ("the same by https", {"Origin": own.replace("http", "https")}, 403),
                ("a request across sites", {"Sec-Fetch-Site": "cross-site"}, 403),
                ("of the same site", {"Sec-Fetch-Site": "same-site"}, 403),
                ("a name that leads here", {"Host": "example.com"}, 403),
                ("a name like an address", {"Host": "127.0.0.1.example.com"}, 403), ("no host", {"Host": ""}, 403),
            ):
                for path in ("/", "/drawing?after=0", "/live.js"):
                    seen = page.get(path, headers)[0]
                    self.check(f"{name}: {path}", seen == status, shown=str(seen))

    def test_the_page_shows_the_last_calls_and_stays_bounded(self):
        """The page shows the last calls, whatever there was before, and is as long after many as after few."""
        with live("--limit", "20") as page:
            page.call()
            page.reserve(0)
            together(*4 * [lambda: [page.invoke() for _ in range(400)]])
            page.reserve(1)
            page.call(b'"the last one"')
            drawn = page.until(lambda drawn: "the last one" in drawn and "output" in drawn)
            shown = [group for group in calls_of(drawn) if "no answer yet" not in group.find(SVG + "title").text]
            self.check("the last 20 calls are shown", len(shown) == 20 and "the last one" in drawn,
                       shown=f"{len(shown)} of {len(calls_of(drawn))}")
            self.check("a page of bounded size", len(drawn) < 40_000, shown=str(len(drawn)))
            self.check("all are counted", "1,602 of them invocations" in drawn
                       and "invoke: throttled <b>1,600</b>" in drawn,
                       shown=drawn[:300])
            self.check("a reservation", "f: 1 reserved from" in drawn)
            with open(f"/proc/{page.tool.pid}/status") as file:
                resident = int(next(line for line in file if line.startswith("VmRSS")).split()[1])
            self.check("memory", resident < 64_000, shown=f"{resident} KB")
            print(f"after 1,602 invocations: a page of {len(drawn):,} bytes, {resident / 1000:.0f} MB of memory")

    def test_what_up_does_is_hidden_unless_all_is_asked_for(self):
        with live() as page, live("--all") as other:
            for each in (page, other):
                ask(each.runtime, "POST", "/2020-01-01/extension/register", '{"events":[]}',
                    {"Lambda-Extension-Name": "lambda_local.up"})
            drawn = other.until(lambda drawn: "lambda_local.up" in drawn)
            self.check("--all shows what lambda_local up does", "lambda_local.up" in drawn)
            drawn = page.until(lambda drawn: "1 call," in drawn)
            self.check("else it is hidden", "1 call," in drawn and "lambda_local.up" not in drawn, shown=drawn[:300])

    def test_a_service_that_goes_is_said_and_another_one_is_shown(self):
        """A service that goes is said to have gone; if one answers there again, its history is shown from its
        beginning."""
        port = free_ports(1, ())[0]
        with live(configuration=dict(CONFIGURATION, invokePort=port)) as page:
            page.call()
            page.until(lambda drawn: "\noutput" in drawn)
            page.service.stop()
            drawn = page.until(lambda drawn: "has been unreachable" in drawn)
            self.check("the page says that the service has gone",
                       "The service has been unreachable since" in drawn and "it was stopped" in drawn,
                       shown=drawn[:300])
            self.check("its last calls stay", "\noutput" in drawn)
            page.service.kill()
            page.service = Service(dict(CONFIGURATION, invokePort=port))
            drawn = page.until(lambda drawn: "has been unreachable" not in drawn)
            self.check("another one is shown", "No calls yet." in drawn and "has been unreachable" not in drawn,
                       shown=drawn[:300])
            status, said = page.end()
            lines = said.splitlines()
            is_said = len(lines) == 2 and "has been unreachable since" in lines[0] and "answers again" in lines[1]
            self.check("both are said", status == 0 and is_said, shown=said)

    def test_faults_of_the_command_are_told(self):
        port = free_ports(1, ())[0]
        for name, arguments, words in (
            ("no service", ("--live", f"http://127.0.0.1:{port}"),
             f"--live http://127.0.0.1:{port}: no service answers there: Connection refused"),
            ("no address", ("--live", "9000"),
             "--live 9000: write the service's address on this machine, such as http://127.0.0.1:9000"),
            ("another machine", ("--live", "http://example.com:9000"), "write the service's address on this machine"),
            ("no port", ("--live", "http://127.0.0.1"), "write the service's address on this machine"),
            ("a port that is none", ("--live", "http://127.0.0.1:99999"),
             "write the service's address on this machine"),
            ("an input", ("--live", "http://127.0.0.1:9000", "x.txt"),
             "--live shows a running service: leave out an input"),
            ("a form", ("--live", "http://127.0.0.1:9000", "--html"),
             "--live shows a running service: leave out --html"),
            ("a window", ("--live", "http://127.0.0.1:9000", "--to", "+1"),
             "--live shows a running service: leave out --to"),
            ("an output", ("--live", "http://127.0.0.1:9000", "-o", "x.html"),
             "--live shows a running service: leave out -o"),
        ):
            status, output, said = run(*arguments)
            self.check(f"fault: {name}", status == 2 and output == "" and words in said and "Traceback" not in said,
                       shown=f"{status} {said}")

    def test_ports_that_are_no_service_are_told(self):
        with live() as page:
            status, _, said = run("--live", f"http://127.0.0.1:{page.port}")
            self.check("fault: another server",
                       status == 2 and "returns no history (status 404): this is not lambda_local" in said,
                       shown=said)
            status, _, said = run("--live", f"http://127.0.0.1:{page.runtime}")
            self.check("fault: the port of an environment", status == 2 and "this is not lambda_local" in said,
                       shown=said)

    def test_Chromium_runs_the_script_of_the_page(self):
        """In Chromium, if it is installed: the script runs, shows what is new, and leads to a failed call."""
        chromium = shutil.which("chromium")
        if not chromium:
            self.skipTest("no Chromium is installed")
        with live() as page, tempfile.TemporaryDirectory() as folder:
            thread = threading.Thread(target=page.call, args=(b'"in the browser"',))
            timer = threading.Timer(1, thread.start)
            timer.start()
            done = subprocess.run([chromium, "--headless", "--no-sandbox", "--disable-gpu", f"--user-data-dir={folder}",
                                   "--virtual-time-budget=5000", "--dump-dom", f"http://127.0.0.1:{page.port}/"],
                                  capture_output=True, text=True, timeout=300)
            timer.join()
            thread.join()
            self.check("Chromium shows the page", "Live timeline of" in done.stdout, shown=done.stderr[-300:])
            has_run = '<button id="pause">Pause</button>' in done.stdout and 'id="lost" hidden' in done.stdout
            self.check("its script has run", has_run, shown=done.stdout[-800:])
