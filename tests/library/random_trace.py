"""A trace of random calls, as the program writes it: of runtimes that do as they should most of the time."""
import json
import random
import subprocess
from typing import Iterator, List

from tests.library.timelines import PROGRAM

FUNCTIONS = "fgh"  # with one environment each
ENVIRONMENTS = len(FUNCTIONS)
CONFIGURATION = {"account": "123456789012", "region": "us-east-2", "functions": [
    {"name": name, "ports": [9000 + number], "timeout": 3, "extensions": ["x"] if name == "h" else []}
    for number, name in enumerate(FUNCTIONS, 1)]}
SELDOM = ("failure E ID ={}", "spindown E", "tick", "init-failure E ={}", "ext-exit-failure 3 1 ={}", "invoke F - - =",
          "response-too-large E ID", "reserve F 1", "reserve F -", "register E =y is -", "ext-next 3 1", "next E",
          "response E ID =z", "invoke F q - =")


def turns(chosen: random.Random, number: int) -> Iterator[str]:
    """The calls of an environment and its callers, without moments."""
    name, count = FUNCTIONS[number - 1], 0
    while True:
        for call in ("next E", "invoke F - TRACE =BODY", "response E ID =BODY"):
            while chosen.random() < 0.06:
                call = chosen.choice((call, *SELDOM))
            count += call.startswith("invoke")
            call = call.replace("TRACE", chosen.choice(("-", "-", "-", "=Root=1-2;Sampled=0")))
            yield call.replace("E", str(number)).replace("F", name).replace("ID", str(count)).replace(
                "BODY", "b" * chosen.randrange(12))


def lines_of(seed: int, count: int) -> List[bytes]:
    """The lines of a trace of so many calls, without bodies."""
    chosen, moment = random.Random(seed), 1000
    calls = {number: turns(chosen, number) for number in (1, 2, 3)}
    script = ["form 2", json.dumps(CONFIGURATION), f"{moment} register 3 =x {chosen.choice(('is', 's', '-'))} -",
              f"{moment} ext-next 3 1"]
    for _ in range(count):
        moment += chosen.choice((0, 0, 0, 1, 2, 50)) if chosen.random() < 0.98 else 4000
        script.append(f"{moment} {next(calls[chosen.choice((1, 1, 2, 2, 3))])}")
    text = "\n".join([*script, f"{moment} stop\n"])
    done = subprocess.run([PROGRAM, "trace", "--bodies", "none"], input=text.encode(), capture_output=True, timeout=60)
    assert done.returncode == 0, done.stderr.decode()
    return done.stdout.splitlines()
