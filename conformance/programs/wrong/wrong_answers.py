"""Runtimes with one mistake each in what they pass to the handler beside its event, or report of it. A class is named
after its mistake, and `check` is the check that catches it."""
import os
import sys
import time

from connection import Connection
from shared_mistakes import is_scenario
from sound_runtime import Runtime


# ---- the context -----------------------------------------------------------------------------------------------------

class KeepsFirstRequestId(Runtime):
    check = "request_id"
    first = None

    def context(self, headers):
        context = super().context(headers)
        self.first = self.first or context.aws_request_id
        context.aws_request_id = self.first
        return context


class BuildsTheArn(Runtime):
    check = "function_arn"

    def context(self, headers):
        context = super().context(headers)
        region, name = os.environ["AWS_REGION"], os.environ["AWS_LAMBDA_FUNCTION_NAME"]
        context.invoked_function_arn = f"arn:aws:lambda:{region}:123456789012:function:{name}"
        return context


class HasRoomForAShortArn(Runtime):
    check = "function_arn"

    def context(self, headers):
        context = super().context(headers)
        context.invoked_function_arn = context.invoked_function_arn[:80]
        return context


class ReadsTheDeadlineAsSeconds(Runtime):
    check = "deadline"

    def remaining(self, deadline):
        return int(1000 * (deadline - time.time()))


class KeepsTheFirstDeadline(Runtime):
    check, also, first = "deadline", {"after_error"}, None

    def remaining(self, deadline):
        self.first = self.first or deadline
        return super().remaining(self.first)


class AssumesThreeSeconds(Runtime):
    check = "deadline"

    def remaining(self, deadline):
        return 3000 - int(1000 * time.time()) % 1000


class RemainingTimeStandsStill(Runtime):
    check = "remaining_time"

    def context(self, headers):
        context = super().context(headers)
        remaining = context.get_remaining_time_in_millis()
        context.get_remaining_time_in_millis = lambda: remaining
        return context


class SetsNoTraceId(Runtime):
    check = "trace_id"

    def call(self, event, headers):
        headers["Lambda-Runtime-Trace-Id"] = ""
        return super().call(event, headers)


class NeverRenewsTheTraceId(Runtime):
    check = "trace_renewed"

    def call(self, event, headers):
        kept = os.environ.get("_X_AMZN_TRACE_ID")
        headers["Lambda-Runtime-Trace-Id"] = kept or headers["Lambda-Runtime-Trace-Id"]
        return super().call(event, headers)


class SetsTheTraceIdOnce(Runtime):
    check, is_set = "trace_renewed", False

    def call(self, event, headers):
        if self.is_set:
            headers["Lambda-Runtime-Trace-Id"] = ""
        self.is_set = True
        return super().call(event, headers)


# ---- errors ----------------------------------------------------------------------------------------------------------

class SendsErrorsAsResponses(Runtime):
    check = "error_reported"

    def fails(self, request, fault):
        self.respond(request, self.report(fault))


class LosesTheErrorMessage(Runtime):
    check = "error_message"

    def fails(self, request, fault):
        fault.args = ("an error occurred",)
        super().fails(request, fault)


class LosesTheErrorType(Runtime):
    check = "error_type"

    def report(self, fault):
        return {**super().report(fault), "errorType": "Error"}


class BuildsReportsByHand(Runtime):
    check = "error_texts"

    def fails(self, request, fault):
        body = f'{{"errorMessage":"{fault}","errorType":"{type(fault).__name__}","stackTrace":[]}}'.encode()
        answer = self.ask("POST", f"invocation/{request}/error", body, self.error_headers(fault))
        self.sent(answer, request, fault)


class CutsMessagesAtALineEnd(Runtime):
    check = "error_texts"

    def report(self, fault):
        report = super().report(fault)
        return {**report, "errorMessage": (report["errorMessage"].splitlines() or [""])[0]}


class PutsTheMessageIntoAHeader(Runtime):
    check = "error_texts"

    def error_headers(self, fault):
        return {**super().error_headers(fault), "X-Message": str(fault).encode().decode("latin-1")}


class ReportsTheErrorBefore(Runtime):
    """Keeps the first error for all that follow."""
    check, also, kept = "error_texts", {"after_error", "nesting"}, None

    def report(self, fault):
        self.kept = self.kept or super().report(fault)
        return self.kept


class KeepsTheContextOfAnErrorForTheNextOne(Runtime):
    check, failed = "after_error", None

    def context(self, headers):
        context, self.failed = self.failed or super().context(headers), None
        self.current = context
        return context

    def fails(self, request, fault):
        self.failed = self.current
        super().fails(request, fault)


class KeepsItsContextAfterAnError(Runtime):
    check, kept = "after_error", None

    def fails(self, request, fault):
        self.kept = self.kept or request
        super().fails(request, fault)

    def context(self, headers):
        context = super().context(headers)
        if self.kept and is_scenario("error_then_output"):
            context.aws_request_id = self.kept
        return context


class StackTraceAsText(Runtime):
    check = "stack_trace"

    def report(self, fault):
        report = super().report(fault)
        return {**report, "stackTrace": "".join(report["stackTrace"])}


class ExitsWithoutInitError(Runtime):
    check = "init_error"

    def init_fails(self, fault):
        if type(fault).__name__ == "InitFailed":
            sys.exit(1)
        super().init_fails(fault)


class GoesOnAfterInitError(Runtime):
    check = "init_error_ends"

    def init_fails(self, fault):
        try:
            super().init_fails(fault)
        except SystemExit:
            if type(fault).__name__ != "InitFailed":
                raise


class DoesNotReportAMissingHandler(Runtime):
    check = "missing_handler"

    def init_fails(self, fault):
        if isinstance(fault, ImportError):
            sys.exit(1)
        super().init_fails(fault)


class TakesInvocationsWithABrokenHandler(Runtime):
    """Loads the handler only when the first invocation is there."""
    check = "broken_handler"

    def init_fails(self, fault):
        if not isinstance(fault, SyntaxError):
            super().init_fails(fault)

        def handler(event, context):
            raise fault
        self.handler = handler


class LeavesRefusalsUnread(Runtime):
    """Takes the next bytes on the connection for the next answer."""
    check, also = "late_response", {"long_refusal"}

    class Unread(Connection):
        def body(self, status, headers):
            return b"" if status >= 400 else super().body(status, headers)

    connected = Unread


class ReadsRefusalsByTheirLength(Runtime):
    check, also = "long_refusal", {"chunked_answers"}

    class ByLength(Connection):
        def body(self, status, headers):
            return self._take(int(headers["Content-Length"] or 0)) if status != 200 else super().body(status, headers)

    connected = ByLength


class ShortensWhatIsTooLarge(Runtime):
    """Sends as much of it as there is room for."""
    check = "too_large"

    def sent(self, answer, request, output):
        if answer.status == 413:
            self.ask("POST", f"invocation/{request}/response", self.dump(output)[:-10] + b'"')
        super().sent(answer, request, output)


class RepeatsWhatIsTooLarge(Runtime):
    check = "too_large"

    def sent(self, answer, request, output):
        while answer.status == 413:
            time.sleep(0.5)
            self.ask("POST", f"invocation/{request}/response", self.dump(output))
        super().sent(answer, request, output)


class RepeatsOnceWhatIsLate(Runtime):
    check = "late_response"

    def sent(self, answer, request, output):
        if answer.status == 403:
            self.ask("POST", f"invocation/{request}/response", self.dump(output))
        super().sent(answer, request, output)


class RepeatsWhatIsLate(Runtime):
    check = "late_response"

    def sent(self, answer, request, output):
        while answer.status == 403:
            time.sleep(0.05)
            answer = self.ask("POST", f"invocation/{request}/response", self.dump(output))
        super().sent(answer, request, output)
