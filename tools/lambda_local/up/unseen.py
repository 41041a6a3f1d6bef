"""An Init of which the service hears once it is over: one that may take longer than it allows, or that a debugger
holds."""
from typing import TYPE_CHECKING

from .due import due
from .processes import reason_of

if TYPE_CHECKING:
    from .environments import Environment


async def begin(environment: "Environment") -> bool:
    """Starts the runtime and waits for its first Next, since this tool's registration would start Init's clock. Whether
    that has come: if not, the generation has ended."""
    try:
        runtime = await environment.start_runtime()
    except OSError as fault:
        environment.say(str(fault), level="error")
        environment.restarts.note(True)
        return False
    function, watch, clock = environment.function, environment.watch, environment.clock
    limit = None if function.debug else function.init
    if limit is None:
        environment.say(f"waiting for a debugger: Init has no time limit until {function.name} is invoked")
    with due(clock, None if limit is None else clock.now() + 1000 * limit) as over:
        while not environment.stopping.is_set():
            if watch.environment(environment.number).generation.poll is not None:
                return True
            await environment.enforce_memory(runtime)
            await watch.news(runtime.gone, over, seconds=environment.look)
            if runtime.gone.done():
                return await fail(environment, reason_of(await runtime.status()), "Runtime.ExitError")
            if over.done():
                return await fail(environment, f"Init timed out after {limit} s", "Init.Timeout")
    return False


async def fail(environment: "Environment", reason: str, kind: str) -> bool:
    """Ends such an Init. (What the runtime has reported itself comes first.)"""
    watch, pause = environment.watch, environment.pause
    await environment.end()
    await watch.refreshed()
    here = watch.environment(environment.number)
    if here.before and here.before.report and here.before is not environment.reported:
        pause.last_report = here.before.report
    else:
        environment.say(f"Init failed: {reason}", level="error", kind="exit")
        environment.remember(reason, kind)
    await environment.fail_init(pause.last_report)
    environment.reported = here.before
    environment.restarts.note(True)
    return False
