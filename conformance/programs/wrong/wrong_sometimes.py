"""Runtimes whose mistake shows itself only sometimes, and one that is disturbed by others on its machine. `beside` are
checks of other scenarios, which are played at the same time."""
import fcntl
import os
import time

from shared_mistakes import everyones, is_scenario
from sound_runtime import Runtime

WAITS = 25  # seconds for another process


class AnswersWronglyOnce(Runtime):
    """Its first process in one scenario loses an output."""
    check, beside = "escapes", ("utf8",)

    def respond(self, request, output):
        if is_scenario("escaped"):
            try:
                os.close(os.open(os.path.join(everyones(), "wrong_runtime.once"), os.O_CREAT | os.O_EXCL))
                output = None
            except FileExistsError:
                pass
        return super().respond(request, output)


class MeetsItself(Runtime):
    """Loses an output if another process of it runs on the same machine, as one that has a file of one name."""
    check, beside, outcome = "escapes", ("utf8",), "NOTE"

    def begin(self):
        self.file, self.has_met = open(os.path.join(everyones(), "wrong_runtime.lock"), "w"), False
        self.met = os.path.join(everyones(), "wrong_runtime.met")
        if is_scenario("text"):
            self.has_met = not self.takes_the_file()
        elif is_scenario("escaped"):
            self.has_met = not self.takes_the_file() if os.path.exists(self.met) else self.meets_another()

    def takes_the_file(self):
        try:
            fcntl.flock(self.file, fcntl.LOCK_EX | fcntl.LOCK_NB)
        except OSError:
            return False
        return True

    def meets_another(self):
        """(The first time it waits for that.)"""
        end = time.monotonic() + WAITS
        while self.takes_the_file() and time.monotonic() < end:
            fcntl.flock(self.file, fcntl.LOCK_UN)
            time.sleep(0.05)
        open(self.met, "w").close()
        return True

    def respond(self, request, output):
        end = time.monotonic() + WAITS
        while is_scenario("text") and not os.path.exists(self.met) and time.monotonic() < end:
            time.sleep(0.05)
        if is_scenario("escaped"):
            time.sleep(0.5)  # (so that copies of it meet)
            output = None if self.has_met else output
        return super().respond(request, output)
