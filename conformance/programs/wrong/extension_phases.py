"""Extensions with one mistake each in how they register, take their events, end, or report errors. A class is named
after its mistake, and `check` is the check that catches it, or by `outcome` if not by a FAIL. `settings` are the kit's
options by which it shows, if those of the test do not do."""
import os
import signal
import sys
import time

import shared_mistakes
from shared_mistakes import TOO_LONG, is_scenario, temporary
from sound_extension import Extension


# ---- registration ----------------------------------------------------------------------------------------------------

class RegistersLate(Extension):
    check, settings = "registers", {"init-seconds": 2}

    def begin(self):
        if is_scenario("registration"):
            time.sleep(TOO_LONG)


class AsksForEventsLate(Extension):
    check, settings = "asks_for_events", {"init-seconds": 2}

    def initialize(self):
        super().initialize()
        if is_scenario("registration"):
            time.sleep(TOO_LONG)


class HasAnotherName(Extension):
    check = "name"

    def name(self):
        return "sound.py"


class AsksForOneMoreEvent(Extension):
    """Is to register for INVOKE and SHUTDOWN; the test says that it is for INVOKE alone."""
    check, settings = "events", {"events": "INVOKE"}


class AsksWithoutItsIdentifier(Extension):
    """At first; when that is refused, with it."""
    check = "identifier"
    tried = False

    def headers(self):
        if self.identifier and not self.tried and self.initialized:
            self.tried = True
            return {}
        return super().headers()

    initialized = False

    def initialize(self):
        super().initialize()
        self.initialized = True


# ---- invocations -----------------------------------------------------------------------------------------------------

class AsksOnce(Extension):
    """Never asks again after its second INVOKE."""
    check = "asks_after_invoke"
    invocations = 0

    def invoked(self, event):
        super().invoked(event)
        self.invocations += 1
        if self.invocations == 2:
            signal.pause()


class IsLate(Extension):
    """Takes longer over its second INVOKE than the function has."""
    check = "invoke_in_time"
    invocations = 0

    def invoked(self, event):
        super().invoked(event)
        self.invocations += 1
        if self.invocations == 2:
            time.sleep(max(0, event["deadlineMs"] / 1000 - time.time()) + 1)


class PollsTwice(shared_mistakes.PollsTwice, Extension):
    check = "one_poll"


# ---- the end ---------------------------------------------------------------------------------------------------------

def file_for(purpose):
    """The file in which the processes of one scenario keep something."""
    return os.path.join(temporary(), f"wrong_extension.{os.environ.get('AWS_LAMBDA_FUNCTION_NAME')}.{purpose}")


class GoesOnAtSpindown(Extension):
    check, reason = "ends_at_spindown", "SPINDOWN"

    def shut_down(self, reason):
        if reason == self.reason:
            signal.pause()
        super().shut_down(reason)


class EndsHalfASecondLate(GoesOnAtSpindown):
    def shut_down(self, reason):
        if reason == self.reason:
            time.sleep(2.5)
        Extension.shut_down(self, reason)


class DoesNotKnowShutdown(Extension):
    """Asks for the next event, whatever came."""
    check, also = "ends_at_spindown", {"ends_at_timeout", "ends_at_failure"}

    def shut_down(self, reason):
        pass


class KnowsOtherReasons(Extension):
    check, also = "ends_at_spindown", {"ends_at_timeout", "ends_at_failure"}

    def shut_down(self, reason):
        if reason == "spindown":
            super().shut_down(reason)


class GoesOnAtTimeout(GoesOnAtSpindown):
    check, reason = "ends_at_timeout", "TIMEOUT"


class GoesOnAtFailure(GoesOnAtSpindown):
    check, reason = "ends_at_failure", "FAILURE"


class KeepsItsIdentifier(Extension):
    """In a file, from one process to the next, and so does not register again."""
    check = "registers_anew"
    path = property(lambda self: file_for("identifier"))

    def register(self):
        if os.path.exists(self.path):
            with open(self.path) as file:
                self.identifier = file.read()
        else:
            super().register()

    def shut_down(self, reason):
        with open(self.path, "w") as file:
            file.write(self.identifier)
        super().shut_down(reason)


class HidesItsCrash(Extension):
    """Is a process that starts the one that works, again and again."""
    check = "crash_noticed"

    def run(self):
        if len(sys.argv) > 2:
            return super().run()
        while os.spawnv(os.P_WAIT, sys.executable, [sys.executable, "-S", *sys.argv, "works"]) < 0:
            time.sleep(0.1)
        return None

    def register(self):
        super().register()
        while not self.identifier:  # (refused, since its older one is not forgotten)
            time.sleep(0.1)
            super().register()


class LeavesALockBehind(Extension):
    """Ends at once if another one was killed before it."""
    check = "works_after_crash"
    path = property(lambda self: file_for("lock"))

    def begin(self):
        with open(self.path, "x"):
            pass

    def end(self, status):
        os.remove(self.path)
        super().end(status)


class SpinsAt500(Extension):
    check = "ends_at_500"

    def at_500(self):
        time.sleep(0.01)


# ---- errors ----------------------------------------------------------------------------------------------------------

class ReportsInitWithoutType(Extension):
    check = "init_error"

    def report_headers(self):
        return {} if self.fails_at == "init" else super().report_headers()


class GoesOnAfterInitError(Extension):
    check = "init_error"

    def end(self, status):
        if self.fails_at == "init":
            signal.pause()
        super().end(status)


class ReportsExitWithoutType(Extension):
    check = "exit_error"

    def report_headers(self):
        return {} if self.fails_at == "exit" else super().report_headers()


class GoesOnAfterExitError(Extension):
    check = "exit_error"

    def end(self, status):
        if self.fails_at == "exit":
            signal.pause()
        super().end(status)


class MisspellsTheRouteOfItsReport(Extension):
    check = "init_error"

    def report(self, path, fault):
        super().report("init/errors" if path == "init/error" else path, fault)


class SwapsItsReports(Extension):
    check, also = "init_error", {"exit_error"}

    def report(self, path, fault):
        super().report({"init/error": "exit/error", "exit/error": "init/error"}[path], fault)


class ReportsNoInitError(Extension):
    """Ends without a word, as one does whose start fails and which has no handler for that."""
    check = "init_error"

    def report(self, path, fault):
        if not path.startswith(self.check.split("_")[0]):
            super().report(path, fault)


class ReportsNoExitError(ReportsNoInitError):
    check = "exit_error"


# ---- what the documents leave open, or is not there: a NOTE ----------------------------------------------------------

class DoesNotKnowHowToFailInItsInit(Extension):
    check, outcome, fails = "init_error", "NOTE", "init"

    def __init__(self):
        super().__init__()
        self.fails_at = None if self.fails_at == self.fails else self.fails_at


class DoesNotKnowHowToFailLater(DoesNotKnowHowToFailInItsInit):
    check, fails = "exit_error", "exit"


class IsForShutdownAlone(Extension):
    check, outcome, settings = "asks_after_invoke", "NOTE", {"events": "SHUTDOWN"}

    def events(self):
        return ["SHUTDOWN"]


class IsForInvokeAlone(Extension):
    check, outcome, settings = "ends_at_spindown", "NOTE", {"events": "INVOKE"}

    def events(self):
        return ["INVOKE"]
