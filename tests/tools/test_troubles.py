"""Checks the clock of a service that a test runs, and the trouble that it calls for by name: throttles, timeouts,
crashes, cold starts and slow Inits. The program is LAMBDA_LOCAL_PROGRAM, else ./lambda_local."""
import contextlib
import io
import json
import threading
import time
from typing import Any, List

from lambda_local.history.words import Word
from lambda_local.in_process import FunctionError, LambdaLocal
from tests.library.cases import Case
from tests.library.clock_kit import EVENT, INVOKE, course_of, posted
from tests.library.traces import entries_in
from tests.library.up_kit import until

ROUNDS = 20


def fault_of(call):
    """The type of the error that a call raises, and its message."""
    try:
        return "nothing", call()
    except FunctionError as fault:
        report: Any = fault.report
        return report["errorType"], report["errorMessage"]
    except (ValueError, RuntimeError) as why:
        return type(why).__name__, str(why)


class Clock(Case):
    def test_the_clock_is_paused_and_advanced(self):
        with LambdaLocal(f=lambda event: event) as service:
            clock = service.clock
            with clock.paused():
                before = clock.now()
                time.sleep(0.05)
                self.check("a paused clock stands", (clock.now(), clock.is_paused), (before, True))
                self.check("an advance", clock.advance(seconds=3), before + 3000)
                self.check("of all units", clock.advance(1.5, milliseconds=1, minutes=1, hours=1, days=1),
                           before + 3000 + 1500 + 1 + 60_000 + 3_600_000 + 86_400_000)
                with clock.paused():
                    pass
                self.check("an inner pause leaves an outer one", clock.is_paused)
            self.check("after it the clock goes on", clock.is_paused, False)

    def test_what_is_no_advance_is_refused(self):
        with LambdaLocal(f=lambda event: event) as service:
            clock = service.clock
            for words, wanted in (((0,), "it is 0 milliseconds"), ((-1,), "seconds is -1"), (("3",), "seconds is '3'"),
                                  ((True,), "seconds is True"), ((float("nan"),), "seconds is nan"),
                                  ((float("inf"),), "seconds is inf"), ((2 ** 53,), "seconds is 9007"),
                                  ((2 ** 50,), "milliseconds in all")):
                kind, text = fault_of(lambda words=words: clock.advance(*words))
                self.check(f"no advance: {words}", (kind, wanted in text), ("ValueError", True), shown=text)
            kind, text = fault_of(lambda: clock.advance(milliseconds=2 ** 53 - 1))
            self.check("too far an advance", (kind, "past 9007199254740991" in text), ("ValueError", True), shown=text)

    def test_without_a_service_there_is_no_clock(self):
        kind, text = fault_of(lambda: LambdaLocal().clock.now())
        self.check("no service", (kind, "no function is started yet" in text), ("RuntimeError", True), shown=text)

    def test_a_timeout_in_a_pause_comes_by_an_advance_alone(self):
        """A timeout in a pause comes by an advance alone."""
        def waits(event):
            entered.append(event)
            while not over:
                time.sleep(0.01)
            return event
        entered: List[Any] = []
        over: List[Any] = []
        got: List[Any] = []
        with LambdaLocal({"waits": {"timeout": 1}}, waits=waits) as service, service.clock.paused():
            thread = threading.Thread(target=lambda: got.append(fault_of(lambda: service.invoke("waits", 1))))
            thread.start()
            until(lambda: bool(entered), 30)
            time.sleep(1.2)
            self.check("no real second ends it", got, [])
            service.clock.advance(seconds=1)
            thread.join()
            self.check("an advance does", got[0][0], "Function.Timeout")
            over.append(1)

    def test_equal_courses_make_equal_histories(self):
        """Equal courses make equal histories: an event with two retries in each round, and a timeout."""
        def fails(_event):
            raise KeyError("missing")
        courses, took = [], []
        with contextlib.redirect_stderr(io.StringIO()), LambdaLocal(
                {"fails": {}, "slow": {"timeout": 900}}, asynchronous={"delays": [60, 120]}, fails=fails,
                slow=lambda event: event) as service, service.clock.paused() as clock:
            self.check("all rest at first", service.settled() and self.rests(service))
            for _ in range(ROUNDS):
                first, at, begun = len(entries_in(service.history())), clock.now(), time.monotonic()
                posted(service.endpoint_url, INVOKE.format("fails"), b"{}", EVENT)
                for seconds in (60, 120):
                    self.quietly("an attempt is over", service.settled(30))
                    clock.advance(seconds)
                self.quietly("so is the last one", service.settled(30))
                self.quietly("a timeout of 15 minutes", service.times_out("slow")["errorType"], "Function.Timeout")
                self.quietly("after it all rest", self.rests(service))
                took.append(time.monotonic() - begun)
                courses.append(course_of(entries_in(service.history())[first:], at))
        self.check("equal histories", [course == courses[0] for course in courses], [True] * ROUNDS,
                   shown=[course for course in courses if course != courses[0]][:1] + courses[:1])
        print(f"note a round takes {min(took):.3f} s to {max(took):.3f} s", flush=True)

    @staticmethod
    def rests(service):
        end = time.monotonic() + 20
        while any(one["phase"] != "idle" for one in service.phases().values()):
            if time.monotonic() > end:
                return False
            time.sleep(0.005)
        return True

    def quietly(self, name, seen, wanted=True):
        if seen != wanted:
            self.check(name, seen, wanted)


class Troubles(Case):
    def test_a_throttled_function_refuses_each_caller_until_it_is_over(self):
        with LambdaLocal({"f": {"environments": 2, "reserved": 1}}, f=lambda event: event,
                         g=lambda event: 2) as service:
            with service.throttled("f"):
                kind, text = fault_of(lambda: service.invoke("f"))
                self.check("it is throttled", (kind, json.loads(text)["Reason"]), (
                    "TooManyRequestsException", "ReservedFunctionConcurrentInvocationLimitExceeded"))
                self.check("any caller gets 429", posted(service.endpoint_url, INVOKE.format("f"))[0], 429)
                self.check("another function is not", service.invoke("g"), 2)
            self.check("then it is not", service.invoke("f", 1), 1)
            self.check("its reservation is as it was", service._reserved("f"), 1)
            with service.throttled("g"):
                pass
            self.check("nor has one that had none", service._reserved("g"), None)

    def test_a_timeout_is_reported_at_once_and_the_handler_not_called(self):
        seen: List[Any] = []
        with LambdaLocal({"f": {"timeout": 900}}, f=seen.append) as service:
            begun = time.monotonic()
            report = service.times_out("f", {"order": 7})
            self.check("its caller gets Lambda's report", (report["errorType"], report["errorMessage"].endswith(
                " Task timed out after 900 seconds")), ("Function.Timeout", True))
            self.check("in a moment", time.monotonic() - begun < 60)
            with service.trouble("f", "timeout"):
                status, body = posted(service.endpoint_url, INVOKE.format("f"), b"1")
            self.check("any caller does, as a function's error", (status, json.loads(body)["errorType"]),
                       (200, "Function.Timeout"))
            service.invoke("f", "after it")
            self.check("its handler was not called", seen, ["after it"])

    def test_a_crash_is_reported_and_the_environment_starts_anew(self):
        seen: List[Any] = []
        with LambdaLocal(f=seen.append) as service:
            self.check("its caller gets Lambda's report", service.crashes("f", 1), {
                "errorType": "Runtime.ExitError", "errorMessage": "Runtime exited with error: exit status 1"})
            service.invoke("f", "after it")
            self.check("its handler was not called", seen, ["after it"])
            kinds = [entry.call.kind for entry in entries_in(service.history()) if not entry.has(Word.REFUSED)]
            self.check("its environment starts anew in between", [kind for kind in kinds if kind != "next"],
                       ["invoke", "failure", "spindown", "invoke", "response"])

    def test_a_cold_function_has_new_environments(self):
        with LambdaLocal({"f": {"environments": 3}}, f=lambda event: event) as service:
            service.invoke("f")
            ended = service.cold("f")
            self.check("its environments end", 1 <= ended <= 3, shown=ended)
            self.check("and new ones begin", service.invoke("f", 2), 2)

    def test_a_slow_init_takes_its_time_or_times_out(self):
        with LambdaLocal(f=lambda event: event) as service:
            before = service.clock.now()
            service.slow_init("f", 5)
            self.check("an invocation waits for its Init", service.invoke("f", 1), 1)
            self.check("which took so long", 5000 <= service.clock.now() - before < 65_000,
                       shown=service.clock.now() - before)
            service.slow_init("f", 12)
            kind, text = fault_of(lambda: service.invoke("f", 2))
            self.check("more than 10 s time out", (kind, text.endswith(" Init timed out after 10 seconds")),
                       ("Init.Timeout", True), shown=text)
            self.check("the next one is as always", service.invoke("f", 3), 3)

    def test_an_init_that_is_asked_for_at_once_is_slow(self):
        """Right after the start, when a runtime may be about to ask."""
        seen = []
        for _ in range(5):
            with LambdaLocal(f=lambda event: event) as service:
                service.slow_init("f", 12)
                seen.append(fault_of(lambda: service.invoke("f", 1))[0])
        self.check("an Init that is slow at once", seen, 5 * ["Init.Timeout"])

    def test_faults_are_told_and_leave_nothing(self):
        one: Any = "1"
        with LambdaLocal(f=lambda event: event) as service:
            for call, wanted in (
                    (lambda: service.throttled("g").__enter__(), "there is no function 'g': there are f"),
                    (lambda: service.times_out("g"), "there is no function 'g'"),
                    (lambda: service.cold("g"), "there is no function 'g'"),
                    (lambda: service.slow_init("g", 1), "there is no function 'g'"),
                    (lambda: service.slow_init("f", 0), "slow_init: 0: give a number of seconds, up to 900"),
                    (lambda: service.slow_init("f", one), "slow_init: '1': give"),
                    (lambda: service.trouble("f", "fire").__enter__(),
                     "trouble: 'fire' is none: give throttle, timeout or crash")):
                kind, text = fault_of(call)
                self.check(f"a fault: {wanted}", (kind, text.startswith(wanted)), ("ValueError", True), shown=text)
            self.check("nothing is left of them", service.invoke("f", 1), 1)
