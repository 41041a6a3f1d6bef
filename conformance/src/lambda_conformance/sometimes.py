"""What fails beside other scenarios, and not each time by itself. In Lambda each environment is alone: a port, or the
name of a file, that its processes share on one machine is none of their mistakes. A fault that shows itself only
sometimes is one, and so it is looked at what was seen, and whether the command meets itself."""
import concurrent.futures
import time
from typing import List

from .kit import FAIL, NOTE, PASS, Finding, OpenStage, Scenario, Verdict, has_failed, run

LEAST, MOST = 2, 5  # times that a scenario is played by itself before it counts as passed
SECONDS = 6  # after which it is played no more than the least
AT_ONCE = 3  # copies of it that are played beside one another


def run_alone(scenario: Scenario, open_stage: OpenStage, before: List[Verdict]) -> List[Verdict]:
    """Plays a scenario again by itself that has failed beside others. What fails by itself is a FAIL. What then passes
    each time is one too if it was something that the program did and copies of the scenario do not disturb one
    another; otherwise it is a NOTE."""
    begun, times = time.monotonic(), 0
    while times < LEAST or (times < MOST and time.monotonic() - begun < SECONDS):
        verdicts, times = run(scenario, open_stage), times + 1
        if has_failed(verdicts):
            return verdicts
    was_done = any(one.outcome == FAIL and one.found.is_deed for one in before)
    is_its_own = was_done and not meets_itself(scenario, open_stage)
    return [judged(earlier, later, times, is_its_own) for earlier, later in zip(before, verdicts)]


def judged(earlier: Verdict, later: Verdict, times: int, is_its_own: bool) -> Verdict:
    if earlier.outcome != FAIL or later.outcome != PASS:
        return later
    if is_its_own:
        return earlier._replace(found=earlier.found.within(f"in 1 of {times + 1} runs: {earlier.came}"))
    return later._replace(outcome=NOTE, found=Finding(f"by itself it passes {times} times; beside other scenarios: "
                                                      f"{earlier.came}"))


def meets_itself(scenario: Scenario, open_stage: OpenStage) -> bool:
    """Whether most of several copies fail that are played at once."""
    with concurrent.futures.ThreadPoolExecutor(AT_ONCE) as pool:
        copies = [pool.submit(run, scenario, open_stage) for _ in range(AT_ONCE)]
        return 2 * sum(has_failed(copy.result()) for copy in copies) > AT_ONCE
