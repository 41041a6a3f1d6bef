"""The phases of an external extension: its registration, its invocations, its end."""
import os
import signal
from typing import List

from .. import pages
from ..clock import CLOCK
from ..kit import NOTE, Missing, Scenario, deed, scenarios_of
from ..watch import began_after, members, parent_of
from ..sockets import owner_of
from ..stage import shown
from .stage import SHUTDOWN_SECONDS, SPARE, ExtensionStage

SCENARIOS: List[Scenario] = []
scenario = scenarios_of(SCENARIOS)

TIMEOUT = 3  # seconds
INVOCATIONS = 3
ENDS = 3  # seconds in which a process that has to end promptly has ended
SETTLES = 1  # seconds in which a poll too many is seen
OF_RUNTIMES = ("next", "response", "error", "init_error")  # requests that an extension does not make


@scenario(
    ("registers", pages.EXTENSION_INIT, "it registers within the Init phase's limit (--init-seconds, 10 by default)"),
    ("name", pages.REGISTER, "Lambda-Extension-Name is its full file name, --name"),
    ("events", pages.REGISTER, "it registers for the events that --events says, by default INVOKE and SHUTDOWN"),
    ("asks_for_events", pages.EXTENSION_INIT,
     "once it has registered it asks, within as much time again, for its first event"),
    ("identifier", pages.EXTENSION_NEXT,
     "each Next has the Lambda-Extension-Identifier that its registration was answered with"), first=True)
def registration(stage: ExtensionStage) -> None:
    options, environment = stage.tools.options, stage.environment
    stage.start()
    if not environment.asked(kind="register", in_vain=stage.misdirected) or environment.saw("register", 5) is None:
        stage.refuse_if_it_ended()
        raise Missing(stage.misdirected() or stage.lacks("it did not register"))
    exchange = environment.proxy.of("register")[0]
    if exchange.refused:
        raise Missing(exchange.finding("its registration is refused"))
    seconds, own = exchange.begun - environment.process.begun, environment.own
    own.real = seconds
    stage.in_time("registers", exchange.status == 200 and min(seconds, own.seconds) <= options.init_seconds, own,
                  options.init_seconds, f"after {seconds:.2f} s, answered {exchange.status}", f"after {seconds:.2f} s")
    name, asked = exchange.request.headers.get("lambda-extension-name"), exchange.json()
    stage.check("name", name == options.name, deed(f"{shown(name)} in place of {options.name}"))
    events = asked.get("events") if isinstance(asked, dict) else None
    stage.check("events", isinstance(events, list) and sorted(events) == sorted(options.events),
                f"{shown(exchange.request.body)}")
    polled = environment.asked(kind="event", in_vain=stage.misdirected)
    first = environment.proxy.of("event")[0] if polled else None
    own, seconds = environment.own, first.begun - exchange.begun if first else 0
    astray = stage.misdirected()
    own.real = seconds
    stage.in_time("asks_for_events", polled and min(seconds, own.seconds) <= options.init_seconds, own,
                  options.init_seconds, f"{seconds:.2f} s after its registration" if polled
                  else f"no Next: {astray.words if astray else stage.ended()}")
    CLOCK.sleep(SETTLES)
    names = stage.names()
    stage.check("name", len(names) < 2, f"it registers {len(names)} times, as {' and as '.join(names)}")
    wrong = [one for one in environment.proxy.of("event")
             if one.request.headers.get("lambda-extension-identifier") != stage.identifier]
    stage.check("identifier", not wrong, f"{len(wrong)} times another one or none")
    waits = any(not one.ended for one in environment.proxy.of("event"))
    stage.jury.stops = not polled or (bool(wrong) and not waits)


@scenario(
    ("asks_after_invoke", pages.EXTENSION_INVOKE, "after each INVOKE it asks for the next event"),
    ("invoke_in_time", pages.EXTENSION_INVOKE,
     "it asks for the next event before the function's timeout, which is for all of the Invoke phase"),
    ("one_poll", pages.EXTENSION_NEXT, "there is one Next at a time: no second one while one waits"),
    ("known_requests", pages.REGISTER,
     "it makes no request of another route than the Extensions API and the Telemetry API have, and does not register "
     "again"),
    timeout=TIMEOUT, lasts=3)
def invocations(stage: ExtensionStage) -> None:
    stage.begin()
    if not stage.registered_for("INVOKE"):
        return stage.jury.rest(NOTE, "it does not register for INVOKE")
    late, silent, environment = [], 0, stage.environment
    for number in range(INVOCATIONS):
        stage.idle()
        stage.invoke(str(number).encode())
        event = stage.event("INVOKE", number + 1)
        # (the service resets the environment at the timeout, by the real clock)
        if not environment.asked_after(event, 2 * TIMEOUT, "event", stage.timeout + TIMEOUT):
            silent += 1
            break
        seconds = stage.polls_after(event)[0].begun - event.end
        if min(seconds, environment.own.seconds) > TIMEOUT or seconds > stage.timeout:
            late.append(seconds)
            break  # (the environment may have been reset)
    CLOCK.sleep(SETTLES)
    polls = environment.proxy.of("event")
    overlap = any(other.begun < one.end for one, other in zip(polls, polls[1:]))
    stage.check("asks_after_invoke", not silent, f"no Next within {2 * TIMEOUT} s after an INVOKE: {stage.ended()}")
    if silent and not late:
        stage.note("invoke_in_time", "not judged: it does not ask again")
    else:
        stage.check("invoke_in_time", not late,
                    f"{late[0] if late else 0:.1f} s after its INVOKE, of a timeout of {TIMEOUT} s")
    if len(polls) < 2:
        stage.note("one_poll", "not judged: it asks once")
    else:
        stage.check("one_poll", not overlap, deed("a second Next while one waited"))
    stray = [one for one in environment.proxy.of("other", "register") if one.refused]
    stray += environment.proxy.of(*OF_RUNTIMES)
    stage.check("known_requests", not stray, deed(str(stray and stray[0])))
    return None


def ends_at(stage: ExtensionStage, name: str, reason: str) -> None:
    """Judges whether it ends at a SHUTDOWN for this reason."""
    exchange, ended, own = stage.shut_down()
    came = exchange.reply_json().get("shutdownReason")
    if came != reason:
        raise Missing(f"its SHUTDOWN was for {came}")
    asked = "it asked for other events, and " if len(stage.polls_after(exchange)) > 1 else ""
    stage.in_time(name, ended, own, SHUTDOWN_SECONDS + SPARE,
                  f"{asked}it still ran {SHUTDOWN_SECONDS:g} s after its SHUTDOWN, and was killed")
    if ended and stage.environment.process.status:
        stage.note(name, f"at its SHUTDOWN {stage.ended()}")


def without_shutdown(stage: ExtensionStage) -> bool:
    """Notes the checks of an extension that does not register for SHUTDOWN: whether it is one."""
    if stage.registered_for("SHUTDOWN"):
        return False
    stage.jury.rest(NOTE, "it does not register for SHUTDOWN")
    return True


@scenario(
    ("ends_at_spindown", pages.EXTENSION_SHUTDOWN, f"at a SHUTDOWN for SPINDOWN it ends within {SHUTDOWN_SECONDS} s"))
def shutdown_for_a_spindown(stage: ExtensionStage) -> None:
    stage.begin()
    stage.idle()
    if not without_shutdown(stage):
        stage.spin_down()
        ends_at(stage, "ends_at_spindown", "SPINDOWN")


@scenario(
    ("ends_at_timeout", pages.EXTENSION_SHUTDOWN, f"at a SHUTDOWN for TIMEOUT it ends within {SHUTDOWN_SECONDS} s"),
    ("registers_anew", pages.EXTENSION_INIT,
     "after a reset its new process registers anew and works as the first one"), timeout=2, lasts=3)
def shutdown_for_a_timeout(stage: ExtensionStage) -> None:
    stage.begin()
    stage.idle()
    if without_shutdown(stage):
        return
    stage.invoke(b'"hang"')
    ends_at(stage, "ends_at_timeout", "TIMEOUT")
    works_anew(stage, "registers_anew")


def works_anew(stage: ExtensionStage, name: str) -> None:
    before = stage.identifier
    stage.begin()
    stage.idle()
    answer = stage.invoke(b'"anew"')
    stage.check(name, stage.identifier != before and answer.body == b'"anew"',
                answer.came(f"the next caller received {shown(answer.body)}"))


@scenario(
    ("ends_at_failure", pages.EXTENSION_SHUTDOWN, f"at a SHUTDOWN for FAILURE it ends within {SHUTDOWN_SECONDS} s"),
    companion=True)
def shutdown_for_a_failure(stage: ExtensionStage) -> None:
    stage.begin()
    stage.idle()
    if not without_shutdown(stage):
        if stage.companion:
            stage.companion.fail()
        ends_at(stage, "ends_at_failure", "FAILURE")


def worker_of(stage: ExtensionStage) -> int:
    """The number of the process that asks for events; if that is a helper that was started for this poll alone, such as
    a `curl`, of the one that has started it."""
    environment = stage.environment
    session = members(environment.process.number)
    found = owner_of(environment.proxy.of("event")[-1].peer, environment.proxy.port, session)
    if found is None:
        raise Missing("the process that asks for events was not found")
    since = stage.registration.begun
    while found != environment.process.number and began_after(found, since):
        parent = parent_of(found)
        if parent is None or parent not in session:
            break
        found = parent
    return found


@scenario(
    ("crash_noticed", pages.EXTENSION_EXIT_ERROR,
     "if the process that asks for events is killed, the command ends: no crash is hidden"),
    ("works_after_crash", pages.EXTENSION_INIT, "after its crash a new process registers and works as the first one"),
    lasts=3)
def crash(stage: ExtensionStage) -> None:
    stage.begin()
    stage.idle()
    environment, found = stage.environment, worker_of(stage)
    os.kill(found, signal.SIGKILL)
    has_ended = environment.process.wait(ENDS)
    stage.in_time("crash_noticed", has_ended, environment.process.own, ENDS,
                  f"{ENDS} s after its process {found} was killed the command still runs")
    stage.forget()
    works_anew(stage, "works_after_crash")


@scenario(
    ("next_without_timeout", pages.EXTENSION_NEXT,
     "Next has no timeout: it waits while there is no event (--idle-seconds, 5 by default)"),
    lasts=5)
def idle_for_long(stage: ExtensionStage) -> None:
    environment, seconds = stage.environment, stage.tools.options.idle_seconds
    stage.begin()
    stage.idle()
    stage.invoke(b"1")  # (what that leaves may end what comes after it)
    stage.idle()
    poll = environment.given_up("event", seconds)
    after = f"{poll.end - poll.begun:.1f} s" if poll else ""
    stage.check("next_without_timeout", poll is None, f"it gave its Next up after {after}; {stage.ended()}")
