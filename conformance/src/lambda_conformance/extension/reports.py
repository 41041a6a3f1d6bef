"""Errors that an extension reports, and refusals of what it asks for."""
from typing import List

from .. import pages
from ..environment import FAILURE_TYPE
from ..kit import Missing, Scenario, deed, scenarios_of
from ..exchanges import Rule
from ..stage import shown
from ..watch import OwnTime
from .stage import ExtensionStage

SCENARIOS: List[Scenario] = []
scenario = scenarios_of(SCENARIOS)

ENDS = 3  # seconds in which a process that has to end promptly has ended
ASKS = 5  # seconds in which a request has come that follows from what came before
MANY = 50  # requests in these that ask for nothing new
LOOK = 0.05  # seconds between two looks
CONTAINER_ERROR = b'{"errorMessage":"Environment is shutting down","errorType":"ContainerError"}'
UNKNOWN = b'{"errorMessage":"Unknown extension","errorType":"Extension.UnknownExtensionIdentifier"}'
REFUSED = b'{"errorMessage":"The extension cannot register","errorType":"Extension.RegistrationRefused"}'
UNKNOWN_EVENT = (b'{"eventType":"CONFORMANCE","deadlineMs":4102444800000,'
                 b'"requestId":"00000000-0000-8000-8001-000000000000"}')
ROUTES = ("other", "init_error", "extension_init_error", "extension_exit_error")


def reports(stage: ExtensionStage, name: str, kind: str) -> None:
    """Judges an error report: its route, its header, its body, and that the process ends after it."""
    environment = stage.environment
    environment.proxy.wait(lambda: environment.process.ended or any(
        one.kind in ROUTES and one.ended for one in environment.proxy.exchanges), ASKS)
    exchange = environment.saw(kind, 0.2)
    stray = [one for one in environment.proxy.of(*ROUTES) if one.kind != kind or (one.refused and one is not exchange)]
    if stray:
        return stage.check(name, False, deed(f"it sends its report, or another request, elsewhere: {stray[0]}"))
    if exchange is None and environment.process.ended and not stage.events("SHUTDOWN"):
        return stage.check(name, False, f"it fails as CONFORMANCE_FAILS asks, and reports nothing: {stage.ended()}")
    if exchange is None:
        return stage.note(name, "it does not fail, though CONFORMANCE_FAILS asks for that")
    header, report = exchange.request.headers.get(FAILURE_TYPE.lower()), exchange.json()
    faults = []
    if not header:
        faults.append(f"no {FAILURE_TYPE}")
    if not isinstance(report, dict) or not report.get("errorMessage") or not report.get("errorType"):
        faults.append(f"its body is {shown(exchange.request.body)}")
    if exchange.status != 202:
        faults.append(f"it was answered {exchange.status}")
    if not environment.process.wait(ENDS):
        faults.append(f"{ENDS} s later its process runs")
    return stage.check(name, not faults, ", ".join(faults))


@scenario(
    ("init_error", pages.EXTENSION_INIT_ERROR,
     "if it fails after its registration (CONFORMANCE_FAILS=init asks for that) it sends init/error, with "
     f"{FAILURE_TYPE}, \"errorMessage\" and \"errorType\", and exits; one that does not know the variable is a NOTE"),
    variables={"CONFORMANCE_FAILS": "init"})
def failing_init(stage: ExtensionStage) -> None:
    stage.start()
    if not stage.environment.asked(kind="register"):
        raise Missing(stage.lacks("it did not register"))
    reports(stage, "init_error", "extension_init_error")


@scenario(
    ("exit_error", pages.EXTENSION_EXIT_ERROR,
     "if it fails later (CONFORMANCE_FAILS=exit asks for that at its first event) it sends exit/error in the same way, "
     "and exits; one that does not know the variable is a NOTE"),
    variables={"CONFORMANCE_FAILS": "exit"})
def failing_later(stage: ExtensionStage) -> None:
    stage.begin()
    stage.idle()
    if stage.registered_for("INVOKE"):
        stage.later(stage.invoke, b"1")
    elif stage.registered_for("SHUTDOWN"):
        stage.spin_down()
    else:
        return stage.note("exit_error", "it registers for no event, at which it could fail")
    return reports(stage, "exit_error", "extension_exit_error")


def ends(stage: ExtensionStage, name: str, since: str) -> None:
    process, kinds = stage.environment.process, ("event", "register")
    asked = len(stage.environment.proxy.of(*kinds))
    ended = process.wait(ENDS)
    more = len(stage.environment.proxy.of(*kinds)) - asked
    stage.in_time(name, ended, process.own, ENDS, f"{ENDS} s after {since} it runs, and has made {more} more requests")


@scenario(
    ("ends_at_500", pages.EXTENSION_NEXT, "after 500 at Next, which is not recoverable, the process exits promptly"))
def container_error(stage: ExtensionStage) -> None:
    stage.environment.proxy.always["event"] = Rule("event", reply=(500, CONTAINER_ERROR))
    stage.register()
    if not stage.environment.asked(kind="event"):
        raise Missing(stage.lacks("it did not ask for an event"))
    ends(stage, "ends_at_500", "500")


@scenario(
    ("ends_at_500_register", pages.REGISTER,
     "after 500 at its registration, which is not recoverable, the process exits promptly; one that asks for events "
     "first, and exits at the next 500, is a SHOULD"))
def container_error_at_registration(stage: ExtensionStage) -> None:
    proxy = stage.environment.proxy
    for kind in ("register", "event", "telemetry"):
        proxy.always[kind] = Rule(kind, reply=(500, CONTAINER_ERROR))
    stage.start()
    if not stage.environment.asked(kind="register"):
        raise Missing(stage.lacks("it did not register"))
    ends(stage, "ends_at_500_register", "500")
    if polls := proxy.of("event"):
        stage.should("ends_at_500_register", f"it asked {len(polls)} times for an event before it ended")


def again_and_again(stage: ExtensionStage, kind: str) -> None:
    """Waits until it ends, or has made a request of a kind again and again, or does neither."""
    process, own = stage.environment.process, OwnTime(stage.environment.process.number)
    while not process.ended and own.look() < ENDS and len(stage.environment.proxy.of(kind)) <= MANY:
        process.wait(LOOK)


@scenario(
    ("refused_registration", pages.REGISTER,
     "if its registration is refused (403) it ends, or registers again; one that asks for events as if it were not "
     "refused, or registers again and again at once, is a SHOULD"))
def registration_refused(stage: ExtensionStage) -> None:
    proxy = stage.environment.proxy
    proxy.always["register"] = Rule("register", reply=(403, REFUSED))
    stage.start()
    process = stage.environment.process
    if not stage.environment.asked(kind="register"):
        raise Missing(stage.lacks("it did not register"))
    again_and_again(stage, "register")
    polls, tries = proxy.of("event"), len(proxy.of("register"))
    if polls:
        stage.should("refused_registration", f"after 403 it asks all the same: {polls[0]}")
    elif tries > MANY:
        stage.should("refused_registration", f"it registers {tries} times within {ENDS} s")
    stage.check("refused_registration", process.ended or tries > 1 or bool(polls),
                f"after 403 it neither ends nor registers again: {stage.ended()}", process.how_it_ended())


@scenario(
    ("refused_next", pages.EXTENSION_NEXT,
     "after 403 at Next it ends, or asks again; to ask again and again at once is a SHOULD"))
def next_refused(stage: ExtensionStage) -> None:
    proxy = stage.environment.proxy
    proxy.always["event"] = Rule("event", reply=(403, UNKNOWN))
    stage.register()
    if not stage.environment.asked(kind="event"):
        raise Missing(stage.lacks("it did not ask for an event"))
    process = stage.environment.process
    again_and_again(stage, "event")
    tries = len(proxy.of("event"))
    if tries > MANY:
        stage.should("refused_next", f"it asks {tries} times within {ENDS} s")
    del proxy.always["event"]
    goes_on = process.ended or stage.environment.asked(tries + 1, ASKS, kind="event")
    stage.check("refused_next", goes_on or tries > 1, f"after 403 it neither ends nor asks again: {stage.ended()}",
                process.how_it_ended())


@scenario(
    ("unknown_event", pages.EXTENSION_NEXT,
     "an event of a type that it does not know does not end it: it asks for the next one"))
def event_of_another_type(stage: ExtensionStage) -> None:
    environment = stage.environment
    environment.proxy.rule = Rule("event", reply=(200, UNKNOWN_EVENT),
                                  headers=[("Lambda-Extension-Event-Identifier", "0")])
    stage.begin()
    goes_on = environment.asked(2, ASKS, kind="event") and not environment.process.wait(0.2)
    stage.check("unknown_event", goes_on, f"after an unknown event {stage.ended()}")
