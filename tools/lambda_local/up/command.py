"""Starts lambda_local with a runtime for each environment, and keeps the runtimes alive.

  lambda_local up                           serves the project in this folder until Ctrl-C or SIGTERM, which stop it in
                                            order: up.json, .aws-sam/build, template.yaml (SAM, CloudFormation),
                                            serverless.yml or cdk.out, whichever is there first
  lambda_local up FILE                      an UP.json or a template; or a folder, such as cdk.out
  lambda_local up -- pytest                 waits until all is ready, runs the command against it, saves the history
                                            if it fails, stops, and ends with the command's status
  lambda_local up --reload                  restarts a function's idle environments when its files change
  lambda_local up --storm 7 -- pytest       some invocations have trouble, the same ones each time by this seed
  lambda_local up --debug greet             starts `greet` with debugpy or Node's inspector, which may hold it: the
                                            clock is paused; a command after -- is run once it has left its Init

What a template does not say is written into lambda_local.json beside it, which has the members of UP.json and is merged
over it. UP.json is a service's configuration (docs/formats.md) in which each function has more members:
  runtime        "python" or "node" (or Lambda's names, such as "python3.12"): the bundled runtime serves `handler`,
                 such as "app.handler"
  python         the interpreter of "runtime": "python" (default: the one that runs this tool)
  command        in its place, what starts another runtime: a list of words, or a string that is split as a shell would
  environments   how many it has, exactly, if no `ports` are given; or {"min": 1, "max": 10} (default): those beyond min
                 are started when invocations wait for them, and end after {"idle": 60} seconds without work
  init           how many seconds its Init may take (default: Lambda's 10)
  layers         folders and .zip files, as layers have them
  variables      an object: environment variables of its processes
  directory      where they run (default: the folder of UP.json), or a .zip file with their code
  inline         in its place, the code itself, as the module index of "python" or "node"
  aliases        names by which it can be invoked too, such as "live"
  asynchronous   an object: retries, maximumAge, onFailure, onSuccess, deadLetter of its own events
  memory         what AWS_LAMBDA_FUNCTION_MEMORY_SIZE says, in MB (default: 128)
  enforceMemory  true: what has used more than that is killed, as on Lambda (default: a warning)
  extensions     an object: the name by which an extension registers, and its command; or null: you start it yourself
  logs           "exact": what each invocation of a command prints is known from the start
  watch          files and folders for --reload (default: its directory)
  url            true: a port that turns HTTP requests into events of a Function URL
  queue          an object: the "url" of an SQS queue whose messages invoke it
  stream         an object: the "url" of a server, and a stream of "kinesis" or "dynamodb" there that invokes it
  topic          an object: the "url" of a server, and the "name" of an SNS topic there that invokes it
  schedule       when it is invoked by itself, such as "rate(5 minutes)"
At the top, "asynchronous": false refuses invocations of the types Event and DryRun, and "routes" is an HTTP or REST
API (docs/asynchronous.md, docs/routes.md).
`account` and `region` may be absent; so may ports and `invokePort`: then free ones are used. A function without a
runtime or command waits for one that you start, at the address that is printed. docs/processes.md tells what
happens when, docs/up_reference.md has all members and options.

Its own lines and those of the functions go to standard error. Exit statuses: the command's, else the service's
(docs/formats.md); 2 for a fault in the arguments or in UP.json; 4 if something cannot be started; 5 if an environment
does not become ready; 70 if a fault in this tool itself ends it."""
import argparse
import sys
from typing import List

from ..from_template.options import add_options
from ..outgoing import tell
from ..service import Fault
from ..storm import storm_of
from ..usage import parser_of
from .log import Log
from .patience import times_of
from .session import Session

USAGE = "[OPTION..] [FILE|FOLDER] [-- COMMAND ..]"


def salt_of(text: str) -> int:
    number = int(text)
    if not 0 <= number < 1 << 64:
        raise ValueError
    return number


salt_of.__name__ = "whole number below 2^64"  # (so does argparse call it in its message)


def seconds_of(text: str) -> float:
    number = float(text)
    if not 0 <= number < 1e6:
        raise ValueError
    return number


seconds_of.__name__ = "number of seconds"


def names_of(text: str) -> List[str]:
    names = [name.strip() for name in text.split(",")]
    if not all(names):
        raise ValueError
    return names


names_of.__name__ = "list of names of functions, separated by commas"


def parser() -> argparse.ArgumentParser:
    made = parser_of("up", __doc__, USAGE)
    made.add_argument("up", metavar="FILE|FOLDER", nargs="?", help="what to serve (what is found in this folder)")
    made.add_argument("--reload", action="store_true", help="spin idle environments down when files change")
    made.add_argument("--debug", metavar="F[:PORT]", help="start the function F with a debugger, which may hold it as "
                                                          "long as it likes: the clock is paused")
    made.add_argument("--storm", metavar="SEED[:RATE]", type=storm_of,
                      help="throttles, cold starts, timeouts, crashes and failed Inits at random, the same ones by the "
                           "same SEED, for a share of the invocations (7 or 7:0.25; RATE is 0.1 by default)")
    made.add_argument("--history", metavar="FILE",
                      help="save the history there, payloads and all (if a command fails, it is saved as "
                                                        "lambda_local.history.txt by default)")
    made.add_argument("--only", metavar="F,G", type=names_of, help="leave all other functions out")
    made.add_argument("--ready", metavar="SECONDS", type=seconds_of,
                      help="wait up to SECONDS for all environments (60, or longer if an \"init\" is)")
    made.add_argument("--patient", metavar="N", type=times_of, default=1,
                      help="for a slow machine: timeouts, Inits and the waits of up are N times as long (1 to 100)")
    made.add_argument("--allow-unready", action="store_true",
                      help="run the command though functions cannot be started or their Init fails")
    made.add_argument("--drain", metavar="SECONDS", type=seconds_of,
                      help="at the end wait up to SECONDS for asynchronous invocations (5)")
    made.add_argument("--salt", metavar="N", type=salt_of,
                      help="the salt of all identifiers (that of UP.json, else the time)")
    made.add_argument("--keep-credentials", action="store_true",
                      help="leave your AWS credentials to the command and the functions")
    made.add_argument("--report", action="store_true",
                      help="print START, END and REPORT for each invocation, as Lambda does")
    made.add_argument("--stage-in-path", action="store_true",
                      help="paths of requests to routes begin with the stage, as at an API's own address: /prod/orders")
    made.add_argument("--quiet", action="store_true", help="print only failures and function output")
    made.add_argument("--log", choices=("text", "json"), default="text", help="the form of each line (text)")
    made.add_argument("--program", metavar="P",
                      help="the program (default: LAMBDA_LOCAL_PROGRAM, else the repository's ./lambda_local)")
    add_options(made)
    return made


def options_of(words: List[str]) -> argparse.Namespace:
    """The options of a command line. A fault ends it with status 2."""
    command: List[str] = []
    split = words.index("--") if "--" in words else None
    if split is not None:
        words, command = words[:split], words[split + 1:]
        if not command:
            raise Fault(2, "write a command after --, or leave -- out")
    options, others = parser().parse_known_args(words)
    if others and not others[0].startswith("-"):
        raise Fault(2, (f"write -- before the command: lambda_local up {options.up} -- {' '.join(others)}"))
    if others:
        usage = "lambda_local up --help"
        parser().error(f"there is no option {others[0]}: {usage} names them; a command follows --")
    options.command = command
    return options


def main() -> int:
    log = None
    try:
        options = options_of(sys.argv[1:])
        log = Log(options.log, options.quiet)
        return Session(options, log).run()
    except Fault as fault:
        if log and log.form == "json":
            log("up", str(fault), level="error", status=fault.status)
        else:
            tell(f"up: {fault}")
        return fault.status
    finally:
        if log:
            log.close()
