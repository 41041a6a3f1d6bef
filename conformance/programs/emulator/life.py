"""One execution environment, as docs/semantics.md describes it, with faults that can be planted: each is a flag.

It is written apart from the definitions, in some other words of its own, and answers with futures: a poll, or an
Invoke, that waits has one without a result."""
import asyncio
import json
import os
import time
import uuid

from faults import LATER

LIMIT, PART = 6_291_456, 65_536  # bytes of a response, and of what is cut
ONE = str(uuid.uuid4())
INIT_SECONDS, CLOSING_SECONDS, MOST_EXTENSIONS = 10, 2, 10
ARN = "arn:aws:lambda:us-east-1:012345678912:function:function"


class Extension:
    def __init__(self, name, events):
        self.name, self.events, self.poll, self.told, self.ended = name, events, None, False, False


class Invocation:
    def __init__(self, payload, trace, arn):
        self.id, self.payload, self.trace, self.arn = str(uuid.uuid4()), payload, trace, arn
        self.has_waited, self.since = False, time.time()  # for an Init that failed
        self.caller = asyncio.get_running_loop().create_future()


class Reply:
    def __init__(self, status, body=b"", **headers):
        self.status, self.body = status, body if isinstance(body, bytes) else json.dumps(body).encode()
        self.headers = {name.replace("_", "-"): value for name, value in headers.items()}


def refusal(status, kind):
    return Reply(status, {"errorMessage": kind, "errorType": kind})


STATE, CONTAINER = refusal(403, "InvalidStateTransition"), refusal(500, "ContainerError")
UNKNOWN, ACCEPTED = refusal(403, "Extension.UnknownExtensionIdentifier"), Reply(202, {"status": "OK"})


class Life:
    def __init__(self, timeout, faults):
        self.timeout, self.faults, self.all = timeout, faults, [self]
        self.content_type = "text/plain" if "sends-plain-text" in faults else "application/json"
        self.phase, self.invocation, self.answered = "starting", None, False
        self.poll, self.extensions, self.earlier, self.queue = None, {}, {}, []
        self.timer, self.deadline, self.late = None, 0, None

    # ---- what changes the phase ----

    def _clock(self, seconds, then, more=0):
        self._no_clock()
        self.deadline = int((time.time() + seconds) * 1000)
        self.timer = asyncio.get_running_loop().call_later(seconds + more, then)

    def _no_clock(self):
        if self.timer:
            self.timer.cancel()
        self.timer = None

    def _contact(self):
        """An Init has its time from the first contact."""
        if self.phase == "starting" and not self.timer:
            self._clock(INIT_SECONDS, self._init_is_over)

    def _look(self):
        """Whether all have asked."""
        if "forgets-the-deadline" in self.faults and self.phase == "busy" and self.answered:
            self._no_clock()
        careless = "misses-readiness" in self.faults or "waits-for-no-extension" in self.faults and self.answered
        ready = self.poll and (careless or all(one.poll for one in self.extensions.values()))
        if ready and (self.phase == "starting" or self.phase == "busy" and self.answered):
            waits = self.invocation if self.phase == "starting" else None
            self.phase, self.invocation = "idle", None
            self._no_clock()
            if waits or self.queue:
                self._deliver(waits or self.queue.pop(0))

    def _deliver(self, invocation):
        self.phase, self.invocation, self.answered = "busy", invocation, False
        waited = time.time() - invocation.since if "counts-the-init" in self.faults else 0
        self._clock(max(0.01, self.timeout - waited), self._timed_out,
                    2 * ("times-out-late" in self.faults) - ("times-out-early" in self.faults))
        deadline = self.deadline + self._later("tells-a-later-deadline")
        trace = None if "loses-the-trace" in self.faults else invocation.trace
        headers = {"Lambda_Runtime_Aws_Request_Id": invocation.id,
                   "Lambda_Runtime_Deadline_Ms": deadline // 1000 if "tells-seconds" in self.faults else deadline,
                   "Lambda_Runtime_Invoked_Function_Arn": invocation.arn,
                   "Lambda_Runtime_Trace_Id": trace or f"Root={uuid.uuid4()}"}
        if "cuts-the-trace" in self.faults:
            headers["Lambda_Runtime_Trace_Id"] = headers["Lambda_Runtime_Trace_Id"].split(";")[0]
        if "drops-deadline" in self.faults:
            del headers["Lambda_Runtime_Deadline_Ms"]
        event = self._written(invocation.payload, "reencodes-events", "minifies-events")
        self._answer_poll(Reply(200, event[:PART] if "cuts-events" in self.faults else event, **headers))
        for one in self.extensions.values():
            if "INVOKE" in one.events and one.poll and "tells-no-invoke" not in self.faults:
                request = str(uuid.uuid4()) if "tells-another-request" in self.faults else invocation.id
                self._answer_extension(one, {
                    "eventType": "INVOKE", "deadlineMs": self.deadline + self._later("tells-events-another-deadline"),
                    "requestId": request,
                    "invokedFunctionArn": ARN + ":1" if "tells-another-arn" in self.faults else invocation.arn,
                    "tracing": {"type": "X-Amzn-Trace-Id",
                                "value": "" if "tells-no-trace" in self.faults else trace or ""}})

    def _later(self, fault):
        return LATER[fault] if fault in self.faults else 0

    def _written(self, body, *faults):
        """A body, written anew if one of these faults is planted."""
        planted = [fault for fault in faults if fault in self.faults]
        if not planted:
            return body
        form = {"separators": (",", ":")} if planted[0].startswith("minifies") else {"indent": 1}
        try:
            return json.dumps(json.loads(body), **form).encode()
        except ValueError:
            return body

    def _timed_out(self):
        if "times-out-both-environments" in self.faults:
            for life in self.all:
                if life is not self and life.phase != "closing":
                    life._fail({"errorType": "Sandbox.Timedout", "errorMessage": "Task timed out"})
                    life._close("timeout")
        self.late = self.invocation.id
        if not self.answered:
            self._fail({"errorType": "Sandbox.Timedout",
                        "errorMessage": f"RequestId: {self.invocation.id} Error: Task timed out"})
        self._close("timeout")

    def _init_is_over(self):
        self._fail({"errorType": "Sandbox.Timedout", "errorMessage": "Init timed out"})
        self._close("timeout")

    def _fail(self, report):
        if self.invocation and not self.answered:
            self._tell_caller(report if isinstance(report, bytes) else json.dumps(report).encode(), True)
        self.invocation = None

    def _tell_caller(self, body, failed):
        body = self._written(body, *(["reencodes-reports"] if failed else ["reencodes-outputs", "minifies-outputs"]))
        body = body[:PART] if "cuts-outputs" in self.faults else body
        if failed and "loses-the-cause" in self.faults:
            body = json.dumps({name: value for name, value in json.loads(body).items() if name != "cause"},
                              separators=(",", ":")).encode()
        if failed and "loses-error-type" in self.faults:
            body = json.dumps({name: value for name, value in json.loads(body).items() if name != "errorType"}).encode()
        headers = {"X_Amz_Executed_Version": "$LATEST", "x_amzn_RequestId": self.invocation.id}
        if (failed or "flags-outputs" in self.faults) and "hides-function-error" not in self.faults:
            headers["X_Amz_Function_Error"] = "Handled" if "handles-errors" in self.faults else "Unhandled"
        if "loses-the-version" in self.faults:
            del headers["X_Amz_Executed_Version"]
        if "invents-request-ids" in self.faults:
            headers["x_amzn_RequestId"] = str(uuid.uuid4())
        resolve(self.invocation.caller, Reply(200, body, **headers))

    def _close(self, reason):
        self.phase, self.reason, self.invocation, self.answered = "closing", reason, None, False
        self._clock(CLOSING_SECONDS, self._begin_anew)
        self._answer_poll(CONTAINER)
        for one in self.extensions.values():
            if one.poll and self._is_for_shutdown(one) and not one.ended:
                self._tell_end(one)
            elif one.poll:
                resolve(one.poll, CONTAINER)
                one.poll = None
        self._look_at_end()

    def _is_for_shutdown(self, one):
        if "tells-no-shutdown" in self.faults:
            return False
        return "SHUTDOWN" in one.events or "tells-shutdown-to-all" in self.faults

    def _tell_end(self, one):
        one.told = True
        reason = "failure" if "tells-another-reason" in self.faults else self.reason
        self._answer_extension(one, {"eventType": "SHUTDOWN", "shutdownReason": reason,
                                     "deadlineMs": self.deadline + self._later("tells-a-later-end")})

    def _look_at_end(self):
        told = "ends-once-told" in self.faults
        if all(one.ended or told and one.told for one in self.extensions.values() if self._is_for_shutdown(one)):
            self._begin_anew()

    def _begin_anew(self):
        self.phase = "starting"
        self._no_clock()
        self.earlier.update(self.extensions)
        self.extensions = {}
        if not self.invocation and self.queue:
            self.invocation = self.queue.pop(0)
        if self.invocation:
            self._contact()

    def _answer_poll(self, reply):
        if self.poll:
            resolve(self.poll, reply)
        self.poll = None

    def _answer_extension(self, one, event):
        resolve(one.poll, Reply(200, event, Lambda_Extension_Event_Identifier=str(uuid.uuid4())))
        one.poll = None

    # ---- calls: each gives a reply, or a future of one ----

    def invoke(self, payload, trace, qualified):
        arn = ARN + (":$LATEST" if qualified and "loses-the-qualifier" not in self.faults else "")
        invocation = Invocation(payload or (b"" if "leaves-empty-events" in self.faults else b"{}"), trace, arn)
        if "repeats-identifiers" in self.faults:
            invocation.id = ONE
        if self.phase == "idle" and (self.poll or "delivers-to-gone-polls" in self.faults):
            self._deliver(invocation)
        elif self.phase == "idle" and not self.invocation:  # (the runtime's connection has ended: it asks again)
            self.invocation = invocation
        elif self.phase not in ("busy", "idle") and not self.invocation and "throttles-early" not in self.faults:
            self.invocation = invocation
            self._contact()
        elif "queues-invokes" in self.faults:
            self.queue.append(invocation)
        else:
            named = {} if "names-no-throttling" in self.faults else {"x_amzn_ErrorType": "TooManyRequestsException"}
            return Reply(503 if "throttles-with-503" in self.faults else 429,
                         {"Reason": "ConcurrentInvocationLimitExceeded", "Type": "User", "message": "Rate Exceeded."},
                         **named)
        return invocation.caller

    def next(self):
        if self.phase == "closing":
            return CONTAINER
        if self.phase == "busy" and not self.answered:
            return STATE
        if self.poll and "delivers-to-older-poll" in self.faults:
            return STATE
        self._answer_poll(STATE)
        mine = self.poll = asyncio.get_running_loop().create_future()
        if "ends-polls" in self.faults:
            asyncio.get_running_loop().call_later(1, lambda: resolve(mine, Reply(504, b"{}")))
        self._contact()
        self._look()
        if self.phase == "idle" and self.invocation:
            self._deliver(self.invocation)
        return mine

    def leave(self, waiting):
        """The connection of what waits has ended."""
        if waiting is self.poll and "delivers-to-gone-polls" not in self.faults:
            self.poll = None
        for one in self.extensions.values():
            one.poll = None if one.poll is waiting else one.poll
        if ("ends-with-its-caller" in self.faults and self.phase == "busy" and self.invocation
                and waiting is self.invocation.caller):
            self.answered = True
            self._look()

    def response(self, identifier, body):
        return self._answered(identifier, body, False)

    def failure(self, identifier, body):
        return self._answered(identifier, body, True)

    def _answered(self, identifier, body, failed):
        other = next((life for life in self.all if life is not self and life.invocation
                      and life.invocation.id == identifier), None)
        if other and "mixes-environments" in self.faults:
            return other._answered(identifier, body, failed)
        if "takes-late-responses" in self.faults and identifier == self.late:
            return ACCEPTED
        if self.phase != "busy" or self.answered:
            is_second = self.phase == "busy" and identifier == self.invocation.id
            if is_second and "answers-twice" in self.faults:
                return ACCEPTED
            return refusal(409, "InvalidStateTransition") if "refuses-otherwise" in self.faults else STATE
        if identifier != self.invocation.id and "accepts-stale-id" not in self.faults:
            return refusal(400, "InvalidRequestID")
        if len(body) > LIMIT and "breaks-down" in self.faults:
            os._exit(1)
        limit = LIMIT + (10 ** 9 if "takes-what-is-too-large" in self.faults else 0)
        limit -= "refuses-the-greatest" in self.faults
        if len(body) > limit:
            self._tell_caller(
                b'{"errorType":"Function.ResponseSizeTooLarge","errorMessage":"Response payload size exceeded"}', True)
        else:
            self._tell_caller(body, failed)
        self.answered = True
        self._look()
        return self._accepted() if len(body) <= limit else refusal(413, "RequestEntityTooLarge")

    def _accepted(self):
        return Reply(200, {"status": "OK"}) if "accepts-with-200" in self.faults else ACCEPTED

    def init_failure(self, body):
        if self.phase != "starting":
            return STATE
        if "retries-a-failed-init" in self.faults and self.invocation and not self.invocation.has_waited:
            self.invocation.has_waited = True
            self.queue.append(self.invocation)
            self.invocation = None
        if "loses-init-reports" in self.faults:
            body = b'{"errorType":"Runtime.ExitError","errorMessage":"Runtime exited"}'
        if "names-the-request" in self.faults:
            body = json.dumps({**json.loads(body), "requestId": ""}).encode()
        self._fail(body)
        self._close("failure")
        return self._accepted()

    def register(self, name, events, wants_account):
        if self.phase != "starting" and not ("registers-late" in self.faults and self.phase != "closing"):
            return STATE
        if any(one.name == name for one in self.extensions.values()) and "takes-a-name-twice" not in self.faults:
            return refusal(403, "Extension.AlreadyRegistered")
        if len(self.extensions) == MOST_EXTENSIONS and "takes-eleven-extensions" not in self.faults:
            return refusal(403, "Extension.TooManyExtensions")
        identifier = str(uuid.uuid4())
        self.extensions[identifier] = Extension(name, events)
        self._contact()
        told = {"functionName": "test_function", "functionVersion": "$LATEST", "handler": "app.run"}
        if "forgets-the-name" in self.faults:
            del told["functionName"]
        if wants_account or "tells-the-account" in self.faults:
            told["accountId"] = "012345678912"
        return Reply(200, told,
                     Lambda_Extension_Identifier=identifier)

    def ext_next(self, identifier):
        one = self._extension(identifier)
        if not one:
            return UNKNOWN
        if self.phase == "closing":
            return self._asked_at_end(one)
        if one.poll:
            resolve(one.poll, STATE)
        mine = one.poll = asyncio.get_running_loop().create_future()
        self._contact()
        self._look()
        return mine

    def _asked_at_end(self, one):
        if self._is_for_shutdown(one) and not one.told and not one.ended:
            mine = one.poll = asyncio.get_running_loop().create_future()
            self._tell_end(one)
            self._look_at_end()
            return mine
        one.ended = True
        self._look_at_end()
        return CONTAINER

    def ext_init_failure(self, identifier, body):
        is_taken = self.phase == "closing" and "takes-init-reports-at-end" in self.faults
        if self._extension(identifier) and self.phase != "starting" and not is_taken:
            return STATE
        return self.ext_exit_failure(identifier, body)

    def ext_exit_failure(self, identifier, body):
        one = self._extension(identifier)
        if not one:
            return UNKNOWN
        if self.phase == "closing" and "refuses-reports-at-end" in self.faults:
            return STATE
        one.ended = True
        if "goes-on-after-failures" in self.faults and self.phase != "closing":
            return self._accepted()
        if self.phase == "closing":
            self._look_at_end()
        else:
            for life in self.all if "ends-both-environments" in self.faults else [self]:
                life._fail(b"null" if "answers-null-for-extensions" in self.faults else body)
                life._close("failure")
        return self._accepted()

    def _extension(self, identifier):
        if "keeps-extensions" in self.faults and identifier in self.earlier:
            return self.earlier[identifier]
        if "shares-extensions" in self.faults:
            return next((life.extensions[identifier] for life in self.all if identifier in life.extensions), None)
        return self.extensions.get(identifier)


def resolve(future, reply):
    if not future.done():  # (the peer may have gone)
        future.set_result(reply)
