"""Has something go wrong with a function of a service that runs, as it does on Lambda.

  lambda_local trouble greet throttle             its callers get 429, until Ctrl-C, or for --seconds N
  lambda_local trouble greet cold                 its idle environments end: the next invocation finds a new one
  lambda_local trouble greet crash [PAYLOAD]      invokes it; its runtime is killed in place of answering
  lambda_local trouble greet timeout [PAYLOAD]    invokes it; its time goes by, as the clock of the service is moved
  lambda_local trouble greet init [PAYLOAD]       invokes it; the Init of a new environment fails

What the caller gets is printed. `crash`, `timeout` and `init` need `lambda_local up`; the first two need an idle
environment. `lambda_local up --storm SEED` has all these at random. However a throttle's command ends, the reservation
is as it was. The service is that of AWS_ENDPOINT_URL_LAMBDA, which `lambda_local up` prints and sets, else
http://127.0.0.1:9000.

Exit statuses: 0, it came about; 1, it did not; 2, a fault in the arguments; 3, the service has refused; 4, the service
cannot be reached, or answers as another does."""
import argparse
import json
import os
import signal
import threading
from typing import Callable, Optional
from urllib.parse import quote, urlencode

from .configuration import Members, is_whole
from .endpoint import Answer, add_option, asked
from .invoke import is_json, print_body, refusal
from .json_reader import members_of
from .outgoing import tell
from .program import Fault
from .usage import parser_of

KINDS = ("throttle", "cold", "crash", "timeout", "init")
REPORTS = {"crash": "Runtime.ExitError", "timeout": "Function.Timeout", "init": "Runtime.ExitError"}
PATHS = {"get": "/2019-09-30/functions/{}/concurrency", "set": "/2017-10-31/functions/{}/concurrency",
         "invoke": "/2015-03-31/functions/{}/invocations"}
LONGEST_SECONDS = 1000.0  # of an invocation: 900, and what it waits for
MOST_SECONDS = 86_400.0
MOST_RESERVED, MOST_ENVIRONMENTS = 1 << 32, 1000  # numbers that a service gives are below these


def seconds_of(text: str) -> float:
    number = float(text)
    if not 0 < number <= MOST_SECONDS:
        raise ValueError
    return number


seconds_of.__name__ = "number of seconds, up to 86400"


def parser() -> argparse.ArgumentParser:
    made = parser_of("trouble", __doc__, "[OPTION..] NAME throttle | cold | KIND [PAYLOAD]")
    made.add_argument("name", metavar="NAME")
    made.add_argument("kind", metavar="KIND", help=", ".join(KINDS))
    made.add_argument("payload", metavar="PAYLOAD", nargs="?")
    made.add_argument("--seconds", type=seconds_of, help="how long it is throttled (until Ctrl-C)")
    add_option(made)
    return made


class Afterwards:
    """A process of its own, which does something once this one has ended, however that is: also by SIGKILL."""

    def __init__(self, do: Callable[[], None]) -> None:
        reading, self.writing = os.pipe()
        self.child = os.fork()
        if self.child == 0:
            os.setsid()  # (what ends the group of this process does not end it)
            os.close(self.writing)
            os._exit(self._when_ended(reading, do))
        os.close(reading)

    @staticmethod
    def _when_ended(reading: int, do: Callable[[], None]) -> int:
        try:
            os.read(reading, 1)
            do()
            return 0
        except Fault as fault:
            tell(f"trouble: {fault}")
            return fault.status
        except BaseException as fault:
            tell(f"trouble: {type(fault).__name__}: {fault}")
            return 1

    def run(self) -> None:
        """Has it done now. A fault in it ends this process with its status."""
        os.close(self.writing)
        status = os.waitstatus_to_exitcode(os.waitpid(self.child, 0)[1])
        if status:
            raise SystemExit(status if status > 0 else 1)  # (it was told)


class Trouble:
    def __init__(self, options: argparse.Namespace) -> None:
        self.options, self.name = options, quote(options.name, safe=":$")

    def ask(self, method: str, target: str, body: bytes = b"", seconds: float = 60.0) -> Answer:
        return asked(self.options.endpoint, method, target, body, seconds=seconds)

    def wanted(self, answer: Answer, *statuses: int) -> Answer:
        """An answer with one of these statuses; the fault of another one."""
        if answer[0] not in statuses:
            raise Fault(3, refusal(self.options.name, *answer))
        return answer

    def members(self, answer: Answer) -> Members:
        """The object that an answer is; Fault if it is none."""
        found = members_of(answer[2])
        if found is None:
            raise self.odd()
        return found

    def odd(self) -> Fault:
        return Fault(4, f"{self.options.name}: the service answers something else than lambda_local does: name the "
                        "address that `lambda_local up` prints by --endpoint")

    # ---- throttle ----------------------------------------------------------------------------------------------------

    def throttle(self) -> int:
        given = self.members(self.wanted(self.ask("GET", PATHS["get"].format(self.name)), 200))
        before = given.get("ReservedConcurrentExecutions")
        if before is not None and not is_whole(before, MOST_RESERVED):
            raise self.odd()
        ending = threading.Event()
        for number in (signal.SIGTERM, signal.SIGINT, signal.SIGHUP):
            signal.signal(number, lambda _number, _frame: ending.set())
        put_back = Afterwards(lambda: self.reserve(before))
        try:
            self.reserve(0)
        except Fault:
            put_back.run()
            raise
        limit = "until Ctrl-C" if self.options.seconds is None else f"for {self.options.seconds:g} s"
        tell(f"trouble: {self.options.name} is throttled {limit}")
        try:
            left = self.options.seconds
            while not ending.wait(0.1 if left is None else min(0.1, left)) and left != 0:
                left = None if left is None else max(0.0, left - 0.1)
        finally:
            put_back.run()
        return 0

    def reserve(self, count: Optional[int]) -> None:
        path = PATHS["set"].format(self.name)
        self.wanted(self.ask("DELETE", path) if count is None else self.ask(
            "PUT", path, json.dumps({"ReservedConcurrentExecutions": count}).encode()), 200, 204)

    # ---- cold --------------------------------------------------------------------------------------------------------

    def cold(self) -> int:
        shown = self.members(self.wanted(self.ask("GET", "/_local/environments"), 200)).get("environments")
        if not isinstance(shown, list) or not all(map(is_environment, shown)):
            raise self.odd()
        here = [one for one in shown if one["function"] == self.options.name]
        if not here:
            raise Fault(3, f"{self.options.name}: there is no such function")
        idle = [one["environment"] for one in here if one["phase"] == "idle"]
        ended = sum(self.ask("POST", f"/_local/env/{number}/spindown")[0] == 202 for number in idle)
        print(f"{ended} of {len(here)} environments ended", flush=True)
        return 0 if ended or all(one["phase"] == "starting" for one in here) else 1

    # ---- crash, timeout ----------------------------------------------------------------------------------------------

    def one_invocation(self) -> int:
        kind, payload = self.options.kind, self.options.payload or "{}"
        if not is_json(payload):
            raise Fault(2, f"{payload[:80]} is not JSON: write for example '{{\"name\": \"Ada\"}}'")
        query = urlencode({"function": self.options.name, "kind": kind})
        answer = self.ask("POST", f"/_local/trouble?{query}")
        if answer[0] == 404 and b"No such resource" in answer[2]:
            raise Fault(3, f"{kind} needs a function of `lambda_local up`: the service is without it")
        self.wanted(answer, 202)
        status, headers, body = self.wanted(
            self.ask("POST", PATHS["invoke"].format(self.name), payload.encode(), LONGEST_SECONDS), 200)
        print_body(body)
        has_come = headers.get("x-amz-function-error") and (members_of(body) or {}).get("errorType") == REPORTS[kind]
        return 0 if has_come else 1


def is_environment(one: object) -> bool:
    """Whether this is one of those that a service shows."""
    return (isinstance(one, dict) and is_whole(one.get("environment"), MOST_ENVIRONMENTS)
            and all(isinstance(one.get(name), str) for name in ("function", "phase")))


def main() -> int:
    options = parser().parse_args()
    trouble = Trouble(options)
    try:
        if options.kind not in KINDS:
            raise Fault(2, f"{options.kind[:80]}: write {', '.join(KINDS[:-1])} or {KINDS[-1]}")
        if options.payload is not None and options.kind not in REPORTS:
            raise Fault(2, f"{options.kind} {options.payload[:80]}: only crash, timeout and init have a payload")
        if options.seconds is not None and options.kind != "throttle":
            raise Fault(2, f"--seconds {options.seconds:g}: only throttle has a time")
        if options.kind == "throttle":
            return trouble.throttle()
        return trouble.cold() if options.kind == "cold" else trouble.one_invocation()
    except Fault as fault:
        tell(f"trouble: {fault}")
        return fault.status
    except KeyboardInterrupt:
        return 130
