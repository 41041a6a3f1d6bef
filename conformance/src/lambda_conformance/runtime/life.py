"""The life of a runtime's process: its Init, its end, and its beginning anew."""
import signal
from typing import Any, List

from .. import pages
from ..clock import CLOCK
from ..kit import Missing, Scenario, deed, scenarios_of
from ..exchanges import Exchange, Rule
from ..stage import Stage, shown

SCENARIOS: List[Scenario] = []
scenario = scenarios_of(SCENARIOS)

SHUTDOWN_SECONDS = 2  # that Lambda's Shutdown phase has
ENDS = 3  # seconds in which a process that has to end promptly has ended
SENDS = 12  # seconds in which it has answered an invocation
CONTAINER_ERROR = b'{"errorMessage":"Environment is shutting down","errorType":"ContainerError"}'


@scenario(
    ("init_in_time", pages.INIT_PHASE,
     "the first Next comes within the Init phase's limit (--init-seconds, 10 by default)"))
def first_next(stage: Stage) -> None:
    environment, limit = stage.environment, stage.tools.options.init_seconds
    seconds = environment.proxy.of("next")[0].begun - environment.process.begun
    own = environment.own
    own.real = seconds  # (it was looked at only now and then)
    passed = min(seconds, own.seconds) <= limit
    stage.in_time("init_in_time", passed, own, limit, f"after {seconds:.2f} s, of {limit:g}", f"after {seconds:.2f} s")


def ends(stage: Stage, name: str, since: str, seconds: float = ENDS) -> None:
    """Judges whether its process ends within this many seconds."""
    process = stage.environment.process
    seen = len(stage.environment.proxy.exchanges)
    ended = process.wait(seconds)
    more = len(stage.environment.proxy.exchanges) - seen
    stage.in_time(name, ended, process.own, seconds, f"{seconds:g} s after {since} {process.how_it_ended()}"
                  + (f", and made {more} more requests" if more else ""))


@scenario(
    ("ends_at_500", pages.NEXT,
     "after 500 at Next, which is not recoverable, the process exits promptly; one that asks again first, and exits at "
     "the next 500, is a SHOULD"))
def container_error_at_next(stage: Stage) -> None:
    proxy = stage.environment.proxy
    proxy.always["next"] = Rule("next", reply=(500, CONTAINER_ERROR))  # (of each Next but the one that waits)
    stage.spin_down()
    exchange = stage.environment.saw("next", SENDS)
    if exchange is None or exchange.status != 500:
        raise Missing("its Next was not answered with 500")
    ends(stage, "ends_at_500", "500")
    asks_before_it_ends(stage, "ends_at_500", exchange)


def asks_before_it_ends(stage: Stage, name: str, exchange: Exchange) -> None:
    """It asks for an invocation once more after the container error, and ends then."""
    later = [one for one in stage.environment.proxy.of("next") if one.begun > exchange.end]
    if stage.environment.process.ended and later:
        stage.should(name, f"it asked {len(later)} times for an invocation before it ended")


def container_error_at(stage: Stage, kind: str, name: str, event: Any) -> None:
    """The environment is at its end: each answer from then on is the container error."""
    proxy = stage.environment.proxy
    proxy.rule = Rule(kind, reply=(500, CONTAINER_ERROR))
    proxy.then = Rule("next", reply=(500, CONTAINER_ERROR))
    stage.later(stage.invoke, event)
    exchange = stage.environment.saw(kind, SENDS)
    if exchange is None:
        raise Missing(f"it sent no {kind}")
    ends(stage, name, f"500 at its {kind}")
    asks_before_it_ends(stage, name, exchange)


@scenario(
    ("ends_at_500_response", pages.RESPONSE,
     "after 500 at its response, which is not recoverable, the process exits promptly; one that asks again first, and "
     "exits at the next 500, is a SHOULD"), timeout=3)
def container_error_at_response(stage: Stage) -> None:
    container_error_at(stage, "response", "ends_at_500_response", {"do": "echo", "value": 1})


@scenario(
    ("ends_at_500_error", pages.INVOKE_ERROR,
     "after 500 at its error, which is not recoverable, the process exits promptly; one that asks again first, and "
     "exits at the next 500, is a SHOULD"), timeout=3)
def container_error_at_error(stage: Stage) -> None:
    container_error_at(stage, "error", "ends_at_500_error", {"do": "fail", "type": "OutOfCheese", "message": "none"})


@scenario(
    ("ends_at_sigterm", pages.SHUTDOWN_PHASE,
     f"after SIGTERM the process ends within {SHUTDOWN_SECONDS} s, before Lambda sends SIGKILL"))
def terminated(stage: Stage) -> None:
    stage.output({"do": "echo", "value": 1})
    stage.idle()
    stage.environment.process.signal(signal.SIGTERM)
    ends(stage, "ends_at_sigterm", "SIGTERM", SHUTDOWN_SECONDS)


@scenario(
    ("cold_start", pages.INVOKE_FAILURES,
     "after a timeout, at which the process is killed, a new one serves the next invocation"),
    timeout=2, lasts=3)
def killed_at_a_timeout(stage: Stage) -> None:
    environment = stage.environment
    stage.idle()
    answer = stage.invoke({"do": "hang"})
    if not answer.failed:
        raise Missing(f"a handler that hangs was answered: {shown(answer.body)}")
    environment.kill()
    asked = len(environment.proxy.of("next"))
    environment.start()
    if not environment.asked(asked + 1):
        raise Missing(stage.lacks("the new process did not ask for an invocation"))
    output = stage.output({"do": "echo", "value": "anew"})
    stage.check("cold_start", output == "anew", f"the new process gave {shown(output)}")


@scenario(
    ("handler_exits", pages.INVOKE_FAILURES,
     "if the handler ends its process, the runtime ends too or reports an error: no invocation is lost"),
    timeout=60)  # far longer than it is waited for, on a busy machine too
def handler_ends_the_process(stage: Stage) -> None:
    stage.idle()
    environment, begun = stage.environment, CLOCK.now()
    answer = stage.later(stage.invoke, {"do": "exit", "value": 3})
    while not environment.process.ended and not answer.done() and CLOCK.now() - begun < ENDS:
        environment.process.wait(0.02)
    if environment.process.ended:
        sent = len(environment.proxy.of("response"))
        return stage.check("handler_exits", sent == 0,
                           deed(f"{environment.process.how_it_ended()}, and sent a response"))
    if answer.done():
        received = answer.result()
        return stage.check("handler_exits", received.failed, received.came())
    return stage.check("handler_exits", False, f"{ENDS} s later neither had the process ended nor the caller an answer")
