"""Checks the clock of a service that runs: shown, paused, moved forward and let go on; what is due expires before an
advance is answered, also at a limit of 15 minutes; the same requests make the same history each time; and readings
never go back, whichever changes come at once. The program is LAMBDA_LOCAL_PROGRAM, else ./lambda_local. Ends with
'N passed, M failed'."""
import json
import threading
import time
from typing import Dict, List, Tuple

from lambda_local.service import RUNTIME, Service, ask
from tests import ROOT
from tests.library.cases import Case
from tests.library.up_kit import until

MINUTES = 15
CONFIGURATION = {"account": "123456789012", "region": "us-east-2",
                 "functions": [{"name": "f", "ports": [0], "timeout": MINUTES * 60}]}
GREATEST = 2 ** 53 - 1
NO_NUMBER = f"ms is not one number from 1 to {GREATEST}"
WRONG = ("", "?ms=", "?ms=0", "?ms=01", "?ms=+1", "?ms=-1", "?ms=1.5", "?ms=x", "?ms=1&ms=1", f"?ms={GREATEST + 1}")
PATIENCE = 60  # seconds until something has to come, on a machine that does much else
TIMES = 20  # equal histories
SECONDS, FEWEST = 3, 5  # how long changes race, and how often each thread makes them at least


class Clock:
    """The clock of a service, by its requests."""

    def __init__(self, service: Service) -> None:
        self.port = service.port

    def asked(self, method: str, path: str = "") -> Tuple[int, Dict[str, object]]:
        status, _, body = ask(self.port, method, f"/_local/clock{path}", timeout=PATIENCE)
        return status, json.loads(body)

    def shown(self) -> Tuple[int, bool]:
        return self.face(self.asked("GET"))

    def set(self, path: str) -> Tuple[int, bool]:
        return self.face(self.asked("POST", path))

    @staticmethod
    def face(answer: Tuple[int, Dict[str, object]]) -> Tuple[int, bool]:
        status, face = answer
        assert status == 200 and sorted(face) == ["now", "running"], answer
        return int(str(face["now"])), face["running"] is True


class Invocation:
    """An invocation whose runtime takes it and does not answer."""

    def __init__(self, service: Service) -> None:
        self.service, self.deadline, self.body = service, 0, b""
        before = service.stats()["entries"]
        runtime = threading.Thread(target=self.take)
        runtime.start()
        until(lambda: service.stats()["entries"] != before, 30)
        self.caller = threading.Thread(target=self.call)
        self.caller.start()
        runtime.join(PATIENCE)

    def take(self) -> None:
        port = self.service.configuration["functions"][0]["ports"][0]
        headers = ask(port, "GET", RUNTIME + "invocation/next", timeout=PATIENCE)[1]
        self.deadline = int(headers["lambda-runtime-deadline-ms"])

    def call(self) -> None:
        self.body = ask(self.service.port, "POST", "/2015-03-31/functions/f/invocations", b"{}", timeout=PATIENCE)[2]

    def is_answered(self, seconds: float) -> bool:
        self.caller.join(seconds)
        return not self.caller.is_alive()


def told_in(history: str, first: int) -> List[str]:
    """The lines of a history, with moments from this one on."""
    lines = [line.replace(str(first + MINUTES * 60_000), "DEADLINE") for line in history.split("\n")[2:]]
    return [line.replace(str(first), "FIRST") for line in lines]


class ClockCase(Case):
    def test_is_set(self) -> None:
        service = Service(CONFIGURATION)
        try:
            clock = Clock(service)
            now, is_running = clock.shown()
            self.check("it runs with the time of day", is_running and abs(now - time.time() * 1000) < 2000, shown=now)
            paused = clock.set("/pause")
            self.check("a pause stands, at or after what was read", paused[0] >= now and not paused[1], shown=paused)
            time.sleep(0.2)
            self.check("it reads the same later", clock.shown(), paused)
            self.check("another pause leaves it", clock.set("/pause"), paused)
            ahead = paused[0] + 90_000, False
            self.check("an advance moves it by that much, and leaves it paused", clock.set("/advance?ms=90000"), ahead)
            for query in WRONG:
                status, fault = clock.asked("POST", "/advance" + query)
                wanted = 400, {"errorMessage": NO_NUMBER, "errorType": "InvalidMilliseconds"}
                self.check(f"advance{query} is refused", (status, fault), wanted)
            past = 400, {"errorMessage": f"ms would set the clock past {GREATEST}", "errorType": "InvalidMilliseconds"}
            self.check("so is one past the greatest moment", clock.asked("POST", f"/advance?ms={GREATEST}"), past)
            self.check("and nothing is moved", clock.shown(), ahead)
            self.check("a pause is a POST", ask(service.port, "GET", "/_local/clock/pause")[0], 405)
            going = clock.set("/resume")
            self.check("it goes on from where it stood", 0 <= going[0] - ahead[0] < 1000 and going[1], shown=going)
            time.sleep(0.2)
            self.check("and runs", 200 <= clock.shown()[0] - going[0] < 10_000)
            status, _, body = ask(service.port, "GET", "/_local/version")
            with open(f"{ROOT}/VERSION", encoding="utf-8") as file:
                version = file.read().strip()
            self.check("the version is said", (status, json.loads(body)), (200, {"version": version}))
        finally:
            service.kill()

    def test_lets_what_is_due_expire(self) -> None:
        service = Service(CONFIGURATION)
        try:
            clock = Clock(service)
            first = clock.set("/pause")[0]
            invocation = Invocation(service)
            self.check("the deadline is of the clock", invocation.deadline, first + MINUTES * 60_000)
            clock.set(f"/advance?ms={MINUTES * 60_000 - 1}")
            self.check("a millisecond before it nothing is due", not invocation.is_answered(0.3))
            begun = time.monotonic()
            reached = clock.set("/advance?ms=1")
            taken = time.monotonic() - begun
            self.check("the advance reaches it", reached, (invocation.deadline, False))
            expired = f"## {invocation.deadline} expire 1"
            self.check("what was due has expired when it is answered", expired in service.history().split("\n"))
            self.check("the caller is told", invocation.is_answered(PATIENCE) and b"timed out" in invocation.body)
            self.check("in no time", taken < 5, shown=taken)
            self.check("its history replays", service.replays(service.history()))
        finally:
            service.kill()

    def test_makes_equal_histories(self) -> None:
        seen = set()
        for _ in range(TIMES):
            service = Service(CONFIGURATION)
            try:
                clock = Clock(service)
                first = clock.set("/pause")[0]
                invocation = Invocation(service)
                clock.set(f"/advance?ms={MINUTES * 60_000}")
                invocation.is_answered(PATIENCE)
                seen.add("\n".join(told_in(service.history(), first)))
            finally:
                service.kill()
        self.check(f"{TIMES} times the same history", len(seen), 1, shown=sorted(seen))

    def test_never_goes_back(self) -> None:
        service = Service(CONFIGURATION)
        try:
            clock, faults, end = Clock(service), [], time.monotonic() + SECONDS

            def read() -> None:
                last = 0
                while time.monotonic() < end:
                    now = clock.shown()[0]
                    if now < last:
                        faults.append((last, now))
                    last = now

            def change() -> None:
                rounds = 0
                while time.monotonic() < end or rounds < FEWEST:
                    for path in "/pause", "/advance?ms=3", "/resume":
                        clock.set(path)
                    rounds += 1

            threads = [threading.Thread(target=it) for it in (read, read, change, change)]
            for thread in threads:
                thread.start()
            for thread in threads:
                thread.join(PATIENCE)
            self.check("readings rise while the clock is set", faults, [])
            moments = [int(line.split(" ")[0]) for line in service.history().split("\n") if line[:1].isdigit()]
            self.check("so do the moments of the history", moments, sorted(moments))
            self.check("which has a tick of each advance", len(moments) >= 2 * FEWEST, shown=len(moments))
        finally:
            service.kill()
