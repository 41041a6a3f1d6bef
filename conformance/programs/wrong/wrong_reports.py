"""Runtimes with one mistake each in what the handler sees beside its event, and in what they report. A class is named
after its mistake, `check` is the check that catches it, and `also` are others that cannot but catch it too."""
import os
import sys
import time

from shared_mistakes import is_scenario
from sound_runtime import PATH, Runtime

AGAIN = {"after_error", "error_texts"}  # checks that look at an error once more


# ---- the context -----------------------------------------------------------------------------------------------------

class WritesTheIdentifierInCapitalsForTheHandler(Runtime):
    check = "request_id"

    def context(self, headers):
        context = super().context(headers)
        context.aws_request_id = context.aws_request_id.upper()
        return context


class CutsTheQualifier(Runtime):
    check = "function_arn"

    def context(self, headers):
        context = super().context(headers)
        context.invoked_function_arn = ":".join(context.invoked_function_arn.split(":")[:7])
        return context


class CountsSeconds(Runtime):
    check = "deadline"

    def remaining(self, deadline):
        return super().remaining(deadline) // 1000


class CountsFromItsStart(Runtime):
    """Takes the deadline of its first invocation for how long each one has."""
    check, begun, length = "deadline", None, None

    def remaining(self, deadline):
        self.length = self.length or super().remaining(deadline)
        self.begun = self.begun or time.monotonic()
        return max(0, self.length - int(1000 * (time.monotonic() - self.begun)))


class CutsTheTraceAtASemicolon(Runtime):
    check = "trace_id"

    def call(self, event, headers):
        headers["Lambda-Runtime-Trace-Id"] = (headers["Lambda-Runtime-Trace-Id"] or "").split(";")[0]
        return super().call(event, headers)


class SetsTheTraceTooLate(Runtime):
    check, before = "trace_id", ""

    def call(self, event, headers):
        mine, headers["Lambda-Runtime-Trace-Id"] = headers["Lambda-Runtime-Trace-Id"], self.before
        self.before = mine
        return super().call(event, headers)


class KeepsTheTraceOfTheInvocationBefore(Runtime):
    """If the next one has none."""
    check, outcome, before = "without_trace", "SHOULD", ""

    def call(self, event, headers):
        self.before = headers["Lambda-Runtime-Trace-Id"] = headers["Lambda-Runtime-Trace-Id"] or self.before
        return super().call(event, headers)


class CachesItsOutputs(Runtime):
    """By their events."""
    check, also, cached = "request_id", {"function_arn", "deadline", "trace_renewed", "after_error"}, {}

    def call(self, event, headers):
        key = str(event)
        if key not in self.cached and len(key) < 1000:
            self.cached[key] = super().call(event, headers)
            return self.cached[key]
        return self.cached[key] if key in self.cached else super().call(event, headers)


# ---- errors ----------------------------------------------------------------------------------------------------------

class PutsTheTypeIntoTheMessage(Runtime):
    check, also = "error_message", AGAIN

    def report(self, fault):
        report = super().report(fault)
        return {**report, "errorMessage": f"{report['errorType']}: {report['errorMessage']}"}


class ReportsAText(Runtime):
    check, also = "error_message", {"error_type", *AGAIN}

    def report(self, fault):
        return f"{type(fault).__name__}: {fault}"


class ReportsWithoutAType(Runtime):
    check = "error_type"

    def report(self, fault):
        return {name: value for name, value in super().report(fault).items() if name != "errorType"}


class NamesItsOwnMembers(Runtime):
    check, also = "error_message", {"error_type", *AGAIN}

    def report(self, fault):
        return {"message": str(fault), "type": type(fault).__name__, "stackTrace": []}


class NestsItsReport(Runtime):
    check, also = "error_message", {"error_type", *AGAIN}

    def report(self, fault):
        return {"error": super().report(fault)}


class ReportsTwice(Runtime):
    check = "responds_once"

    def fails(self, request, fault):
        super().fails(request, fault)
        Runtime().ask("POST", f"invocation/{request}/error", self.dump(self.report(fault)))


class RespondsAfterItsError(Runtime):
    check = "responds_once"

    def fails(self, request, fault):
        super().fails(request, fault)
        Runtime().ask("POST", f"invocation/{request}/response", b"null")


class SwallowsErrors(Runtime):
    check, also = "error_reported", {"responds_once", "many_invocations", "ends_at_500_error"}

    def fails(self, request, fault):
        self.respond(request, None)


class SendsErrorsToTheInit(Runtime):
    check, also = "error_reported", {"error_message"}

    def fails(self, request, fault):
        self.ask("POST", "init/error", self.dump(self.report(fault)), self.error_headers(fault))


class MisspellsTheErrorRoute(Runtime):
    check = "error_reported"

    def fails(self, request, fault):
        self.ask("POST", f"invocation/{request}/errors", self.dump(self.report(fault)), self.error_headers(fault))


class SendsErrorsToTheFirstInvocation(Runtime):
    check, first = "after_error", None

    def fails(self, request, fault):
        super().fails(self.first or request, fault)

    def respond(self, request, output):
        self.first = self.first or (request if is_scenario("error_then_output") else None)
        return super().respond(request, output)


class CutsItsMessages(Runtime):
    check = "error_texts"

    def report(self, fault):
        report = super().report(fault)
        return {**report, "errorMessage": report["errorMessage"][:1024]}


class ReportsNothingForAnEmptyMessage(Runtime):
    check = "error_texts"

    def fails(self, request, fault):
        return super().fails(request, fault) if str(fault) else self.respond(request, None)


class FormatsItsMessages(Runtime):
    check = "error_texts"

    def report(self, fault):
        report = super().report(fault)
        return {**report, "errorMessage": report["errorMessage"].replace("%s", "").replace("%d", "0")}


class TrimsItsMessages(Runtime):
    check = "error_texts"

    def report(self, fault):
        return {**super().report(fault), "errorMessage": str(fault).strip()}


class ReadsNumbersInItsMessages(Runtime):
    check = "error_texts"

    def report(self, fault):
        found = super().report(fault)
        return {**found, "errorMessage": int(str(fault)) if str(fault).isdigit() else str(fault)}


class ColoursItsMessages(Runtime):
    check = "error_texts"

    def report(self, fault):
        report = super().report(fault)
        return {**report, "errorMessage": report["errorMessage"].replace("\x1b", "")}


class ForgetsTheTraceAfterAnError(Runtime):
    check, failed = "after_error", False

    def fails(self, request, fault):
        self.failed = is_scenario("error_then_output")
        super().fails(request, fault)

    def call(self, event, headers):
        if self.failed:
            headers["Lambda-Runtime-Trace-Id"] = ""
        return super().call(event, headers)


class LosesTheOutputAfterAnError(Runtime):
    """Reports the error once more for the next invocation."""
    check, also, kept = "after_error", {"error_texts", "many_invocations", "responds_once"}, None

    def fails(self, request, fault):
        self.kept = fault
        super().fails(request, fault)

    def call(self, event, headers):
        if self.kept and event.get("do") == "echo" and is_scenario("error_then_output"):
            fault, self.kept = self.kept, None
            raise fault
        return super().call(event, headers)


class StacksANumber(Runtime):
    check = "stack_trace"

    def report(self, fault):
        return {**super().report(fault), "stackTrace": [1, 2]}


# ---- Inits -----------------------------------------------------------------------------------------------------------

class ReportsItsInitWithoutAType(Runtime):
    check = "init_error"

    def init_fails(self, fault):
        self.report = lambda fault: {"errorMessage": str(fault) or "none"}
        super().init_fails(fault)


class ReportsItsInitAsAnInvocation(Runtime):
    check, also = "init_error", {"missing_handler", "broken_handler"}

    def init_fails(self, fault):
        self.ask("POST", "invocation/init/error", self.dump(self.report(fault)))
        sys.exit(1)


class ReportsItsInitByPut(Runtime):
    check, also = "init_error", {"missing_handler", "broken_handler"}

    def init_fails(self, fault):
        self.ask("PUT", "init/error", self.dump(self.report(fault)))
        sys.exit(1)


class WaitsAfterItsInitError(Runtime):
    check = "init_error_ends"

    def init_fails(self, fault):
        self.ask("POST", "init/error", self.dump(self.report(fault)), self.error_headers(fault))
        time.sleep(30 if type(fault).__name__ == "InitFailed" else 0)
        sys.exit(1)


class LoadsItsHandlerLate(Runtime):
    """With the first invocation, which then fails."""
    check, also = "missing_handler", {"broken_handler", "init_error", "init_error_ends"}

    def load(self):
        pass

    def call(self, event, headers):
        if self.handler is None:
            Runtime.load(self)
        return super().call(event, headers)


class TakesAMissingFunctionForAnEcho(Runtime):
    check = "missing_function"

    def load(self):
        try:
            super().load()
        except AttributeError:
            self.handler = lambda event, context: event


class TakesAMissingHandlerForAnEcho(Runtime):
    check = "missing_handler"

    def init_fails(self, fault):
        if os.environ["_HANDLER"].startswith("missing"):
            self.handler = lambda event, context: {"errorMessage": "no handler"}
            return
        super().init_fails(fault)


class EndsWithoutAWordAtABrokenHandler(Runtime):
    check = "broken_handler"

    def init_fails(self, fault):
        if isinstance(fault, SyntaxError):
            sys.exit(1)
        super().init_fails(fault)


class RespondsAsItExits(Runtime):
    """An `atexit` of a framework that answers what is open."""
    check, open_request = "handler_exits", None

    def call(self, event, headers):
        request = headers["Lambda-Runtime-Aws-Request-Id"]

        def leave(status):
            Runtime().ask("POST", f"invocation/{request}/response", b"null")
            os.kill(os.getpid(), 9)
        os._exit = leave
        return super().call(event, headers)


class WaitsForeverAfterAnExit(Runtime):
    check = "handler_exits"

    def begin(self):
        os._exit = lambda status: time.sleep(1000)


class ChecksRoutesItDoesNotHave(Runtime):
    """Asks whether the environment is to be restored, whatever it is."""
    check = "known_routes"

    def begin(self):
        self.asked = False

    def respond(self, request, output):
        super().respond(request, output)
        if is_scenario("one_after_the_other"):
            self.ask("GET", PATH + "restored")
