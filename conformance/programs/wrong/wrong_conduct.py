"""Runtimes with one mistake each in when they begin, ask, respond or end. A class is named after its mistake, and
`check` is the check that catches it, by `outcome` if not by a FAIL; `also` are others that cannot but catch it.
`settings` are the kit's options by which it shows, if those of the test do not do."""
import atexit
import json
import os
import signal
import sys
import time

import shared_mistakes
from connection import Connection
from shared_mistakes import TOO_LONG, everyones, is_scenario, temporary
from sound_runtime import Parts, Runtime


# ---- the life of the process -----------------------------------------------------------------------------------------

class StartsSlowly(Runtime):
    check, settings = "init_in_time", {"init-seconds": 1}

    def begin(self):
        if is_scenario("first_next"):
            time.sleep(TOO_LONG)


class WaitsBeforeItEnds(Runtime):
    """Ends after 500 as it has to, but five seconds later, in which it does nothing."""
    check = "ends_at_500"

    def at_500(self, answer):
        time.sleep(5 if is_scenario("container_error_at_next") else 0)
        super().at_500(answer)


class SpinsAt500(Runtime):
    check = "ends_at_500"

    def next_refused(self, answer):
        time.sleep(0.01)


class RepeatsItsResponseAt500(Runtime):
    check = "ends_at_500_response"

    def sent(self, answer, request, output):
        while answer.status == 500 and not isinstance(output, Exception):
            time.sleep(0.1)
            self.ask("POST", f"invocation/{request}/response", self.dump(output))
        super().sent(answer, request, output)


class WaitsAt500OfItsError(Runtime):
    check = "ends_at_500_error"

    def sent(self, answer, request, output):
        if answer.status == 500 and isinstance(output, Exception):
            signal.pause()
        super().sent(answer, request, output)


class IgnoresSigterm(Runtime):
    check = "ends_at_sigterm"

    def begin(self):
        signal.signal(signal.SIGTERM, signal.SIG_IGN)


class LeavesALockBehind(Runtime):
    """Ends at once if another one was killed before it in the same environment."""
    check = "cold_start"

    def begin(self):
        names = (os.environ["AWS_LAMBDA_FUNCTION_NAME"], os.environ["AWS_LAMBDA_RUNTIME_API"].rpartition(":")[2])
        path = os.path.join(temporary(), "wrong_runtime.{}.{}.lock".format(*names))
        with open(path, "x"):
            atexit.register(os.remove, path)


class SwallowsExits(Runtime):
    check = "handler_exits"

    def begin(self):
        os._exit = sys.exit

    def one_invocation(self):
        try:
            super().one_invocation()
        except SystemExit as fault:
            if fault.code != 3:
                raise


# ---- requests and connections ----------------------------------------------------------------------------------------

class PollsTwice(shared_mistakes.PollsTwice, Runtime):
    check = "one_next"


class AsksBeforeItResponds(Runtime):
    check = "next_after_response"

    def call(self, event, headers):
        connection = Connection(self.address)
        connection.request("GET", self.next_path)
        connection.answer()  # (403: the environment is busy)
        connection.close()
        return super().call(event, headers)


class AsksWhileALargeEventIsHandled(AsksBeforeItResponds):
    check = "output_limit"

    def call(self, event, headers):
        is_large = isinstance(event, dict) and len(str(event.get("value"))) > 1_000_000
        return super().call(event, headers) if is_large else Runtime.call(self, event, headers)


class LosesItsOutputs(Runtime):
    """As one that does not wait for what the handler promises."""
    check = "first_echo"

    def respond(self, request, output):
        return super().respond(request, {})


class RespondsTwice(Runtime):
    check = "responds_once"

    def sent(self, answer, request, output):
        super().sent(answer, request, output)
        if answer.status == 202 and not isinstance(output, (Exception, Parts)):
            Runtime().ask("POST", f"invocation/{request}/response", self.dump(output))


class DiesWithItsConnection(shared_mistakes.DiesWithItsConnection, Runtime):
    pass


class GivesNextUp(shared_mistakes.GivesNextUp, Runtime):
    pass


class LeavesAnAlarm(shared_mistakes.LeavesAnAlarm, Runtime):
    def respond(self, request, output):
        super().respond(request, output)
        self.set_alarm()


# ---- many invocations ------------------------------------------------------------------------------------------------

class KeepsEveryEvent(Runtime):
    check, settings = "memory", {"invocations": 500}
    events = []

    def read(self, payload):
        self.events.append(bytearray(payload))
        return super().read(payload)


class LeavesFilesOpen(Runtime):
    check, settings = "descriptors", {"invocations": 100}
    files = []

    def read(self, payload):
        self.files.append(open(os.devnull))
        return super().read(payload)


class KeepsALittle(Runtime):
    """Twenty thousand bytes of each event, however large it is."""
    check, settings = "memory", {"invocations": 500}
    kept = []

    def read(self, payload):
        self.kept.append(bytearray(payload[:20_000]))
        return super().read(payload)


class StartsAThreadForEach(Runtime):
    check, settings = "threads", {"invocations": 100}

    def read(self, payload):
        import threading
        threading.Thread(target=time.sleep, args=(1000,), daemon=True).start()
        return super().read(payload)


class LeavesProcesses(Runtime):
    """Each in a session of its own."""
    check, settings = "children", {"invocations": 60}

    def read(self, payload):
        if len(payload) > 10_000 and os.fork() == 0:
            os.setsid()
            self.connection.close()
            os.execvp("sleep", ["sleep", "60"])
        return super().read(payload)


class LeavesZombies(Runtime):
    check, settings = "zombies", {"invocations": 60}

    def read(self, payload):
        if len(payload) > 10_000 and os.fork() == 0:
            os._exit(0)
        return super().read(payload)


class LeavesPayloads(Runtime):
    check, settings = "files", {"invocations": 100}
    count = 0

    def read(self, payload):
        if len(payload) > 10_000:
            self.count += 1
            with open(os.path.join(temporary(), f"wrong_runtime.{os.getpid()}.{self.count}.json"), "wb") as file:
                file.write(payload)
        return super().read(payload)


class WritesOneLog(Runtime):
    """All payloads, one behind the other."""
    check, settings = "files", {"invocations": 100}

    def read(self, payload):
        with open(os.path.join(temporary(), f"wrong_runtime.{os.getpid()}.log"), "ab") as file:
            file.write(payload)
        return super().read(payload)


class LeavesFolders(Runtime):
    """One without a file, for each invocation."""
    check, outcome, settings, count = "files", "SHOULD", {"invocations": 60}, 0

    def read(self, payload):
        self.count += 1
        os.mkdir(os.path.join(temporary(), f"wrong_runtime.{os.getpid()}.{self.count}"))
        return super().read(payload)


class SharesAFile(Runtime):
    """Passes the output on through a file that all environments of the function share."""
    check, outcome = "environments_apart", "NOTE"

    def respond(self, request, output):
        path = os.path.join(everyones(), f"wrong_runtime.{os.environ['AWS_LAMBDA_FUNCTION_NAME']}.output")
        if is_scenario("several_at_once"):
            with open(path, "a+") as file:
                file.write(f"{output}\n")
                outputs, end = [], time.monotonic() + 10
                while len(outputs) < 2 and time.monotonic() < end:  # (the others come, if late on a busy machine)
                    time.sleep(0.05)
                    file.flush()
                    file.seek(0)
                    outputs = file.read().split()
            output = json.loads(outputs[-1])
        return super().respond(request, output)


# ---- what the documents recommend: a SHOULD --------------------------------------------------------------------------

class LeavesSmallFiles(Runtime):
    check, outcome, settings = "files", "SHOULD", {"invocations": 100}

    def context(self, headers):
        request = headers["Lambda-Runtime-Aws-Request-Id"]
        if is_scenario("thousands"):
            with open(os.path.join(temporary(), f"wrong_runtime.{request}.headers"), "w") as file:
                file.write(request)
        return super().context(headers)


class LeavesFilesThatSayNothing(Runtime):
    """In a folder that everyone uses: neither their names nor what is in them shows whose they are."""
    check, outcome, settings = "files", "SHOULD", {"invocations": 100}

    def read(self, payload):
        if is_scenario("thousands"):
            with open(os.path.join(everyones(), f"job{os.urandom(6).hex()}.tmp"), "w") as file:
                file.write("done")
        return super().read(payload)


class AsksAgainAfter500(Runtime):
    """Looks at the status of Next alone."""
    check, outcome = "ends_at_500_response", "SHOULD"

    def sent(self, answer, request, output):
        pass


class DiesAfterAnError(Runtime):
    check, outcome = "same_process", "SHOULD"

    def fails(self, request, fault):
        super().fails(request, fault)
        sys.exit(1)


# ---- what the documents leave open: a NOTE ---------------------------------------------------------------------------

class NamesOneTypeForAllErrors(Runtime):
    check, outcome = "error_header", "NOTE"

    def error_headers(self, fault):
        return {"Lambda-Runtime-Function-Error-Type": "Runtime.Unknown"}


class ReadsNoDeepEvents(Runtime):
    """Reports what is deeper than 64 levels as an error, as some parsers do by default."""
    check, outcome = "nesting", "NOTE"

    def read(self, payload):
        if payload.count(b'{"in":[') > 32:
            raise ValueError("it is nested too deeply")
        return super().read(payload)


class ReportsNoTrace(Runtime):
    check, outcome = "stack_trace", "NOTE"

    def report(self, fault):
        return {name: value for name, value in super().report(fault).items() if name != "stackTrace"}


class SendsNoErrorHeader(Runtime):
    check, outcome = "error_header", "NOTE"

    def error_headers(self, fault):
        return {}


class ConnectsForEachRequest(Runtime):
    check, outcome = "keep_alive", "NOTE"

    def ask(self, *arguments, **named):
        self.connection.close()
        return super().ask(*arguments, **named)


class EndsWhenItIsLate(Runtime):
    check, outcome, refusal = "late_response", "NOTE", 403

    def sent(self, answer, request, output):
        if answer.status == self.refusal:
            sys.exit(1)
        super().sent(answer, request, output)


class EndsWhenItIsTooLarge(EndsWhenItIsLate):
    check, refusal = "too_large", 413


class DoesNotStream(Runtime):
    check, outcome = "stream", "NOTE"

    def respond(self, request, output):
        return super().respond(request, "".join(output) if isinstance(output, Parts) else output)
