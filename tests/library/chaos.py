"""Chaos under lambda_local up: events, calls, Function URLs and routes beside one another, while functions and
extensions are killed at random, the queue fills, the log is not read for a while, and followers of the trace come,
stall and leave. Beside it, further runs of
lambda_local up, each with a command, are killed themselves (so is their front, a thread of theirs): nothing of them
may be left."""
import collections
import http.client
import json
import os
import random
import re
import signal
import subprocess
import threading
import time
import urllib.parse
from typing import Dict, List

from tests.library.counted import check
from tests.library.followers import Follower, come_and_go
from tests.library.threads import together
from tests.library.up_kit import ROOT, RUNTIME, Up, children, command_of, lives, until

APP = """import os, random, time
def run(event):
    if isinstance(event, dict) and event.get("print"): print("x" * 500)
    time.sleep(random.random() * 0.02)
    if isinstance(event, dict) and event.get("number", 0) % 7 == 3: raise ValueError(event["number"])
    return {"statusCode": 200, "body": "here"}
"""
EXTENSION = """#!/bin/sh
api=http://$AWS_LAMBDA_RUNTIME_API/2020-01-01/extension
id=$(curl -s -o /dev/null -D - -H "Lambda-Extension-Name: x" -d '{"events":["INVOKE","SHUTDOWN"]}' $api/register |
  tr -d '\\r' | sed -n 's/^[Ll]ambda-[Ee]xtension-[Ii]dentifier: //p')
while curl -s -f -H "Lambda-Extension-Identifier: $id" $api/event/next | grep -q INVOKE; do :; done
"""
EVENT = re.compile(r"event ([0-9a-f-]{36}) (.*)")
# A module and a command that put processes into sessions of their own; words that no other process has
LEAVING = """import subprocess
subprocess.Popen(["sleep", "88001"], start_new_session=True)
subprocess.run(["sh", "-c", "setsid sleep 88002 >/dev/null 2>&1 &"])
def run(event): return event
"""
COMMAND = ["--", "sh", "-c", "setsid sleep 88003 >/dev/null 2>&1 & (setsid sleep 88004 >/dev/null 2>&1 &); "
           "exec sleep 88005"]
FOLLOWERS = 12
OVER = re.compile(r"ok after|is refused|it is dropped|its record goes to|is lost by the stop")


def state_of(pid):
    """How many descriptors a process has, and how many kilobytes of memory."""
    with open(f"/proc/{pid}/status") as file:
        memory = next(int(line.split()[1]) for line in file if line.startswith("VmRSS:"))
    return len(os.listdir(f"/proc/{pid}/fd")), memory


class Chaos:
    def __init__(self, seconds, seed):
        self.random, self.end = random.Random(seed), time.monotonic() + seconds
        self.taken: List[str] = []
        self.counts: Dict[str, int] = collections.Counter()
        self.lock = threading.Lock()
        one = {"command": RUNTIME, "timeout": 5, "environments": 2}
        self.up = Up("--ready", "600", "--history", "saved", "--drain", "60", functions=[
            {"name": "f", "url": True, **one}, {"name": "g", **one, "extensions": {"x": ["./extension"]}},
            {"name": "records", **one}], files={"extension": EXTENSION}, app=APP,
            whole={"asynchronous": {"retries": 1, "delays": [0.2], "onFailure": "records"}, "routes": {"GET /a": "g"}})
        assert self.up.until("[up] ready", 600), self.up.lines
        self.addresses = [address for line in self.up.lines if "its URL is" in line or "routes:" in line
                          for address in re.findall(r"http://[0-9.:]+", line)[:1]]

    def goes_on(self):
        return time.monotonic() < self.end and self.up.process.poll() is None

    def note(self, name, count=1):
        with self.lock:
            self.counts[name] += count

    def ask(self, address, method, path, body=None, headers={}):
        connection = http.client.HTTPConnection(urllib.parse.urlsplit(address).netloc, timeout=60)
        try:
            connection.request(method, path, body, headers)
            answer = connection.getresponse()
            answer.read()
            return answer.status, answer.getheader("x-amzn-RequestId")
        except (OSError, http.client.HTTPException):
            return 0, None
        finally:
            connection.close()

    def invoke(self, number, kind):
        event = {"number": number, "print": number % 5 == 0}
        path = f"/2015-03-31/functions/{'fg'[number % 2]}/invocations"
        return self.ask(self.up.endpoint, "POST", path, json.dumps(event), {"X-Amz-Invocation-Type": kind})

    def send_events(self):
        number = 0
        while self.goes_on():
            # (now and then more than the queue holds)
            for _ in range(1500 if self.random.random() < 0.01 else 5):
                number += 1
                status, identifier = self.invoke(number, "Event")
                self.note(f"event {status}")
                if status == 202:
                    with self.lock:
                        self.taken.append(identifier)
            time.sleep(0.05)

    def call(self):
        number = 0
        while self.goes_on():
            number += 1
            self.note(f"call {self.invoke(number, 'RequestResponse')[0]}")

    def get(self):
        while self.goes_on():
            self.note(f"get {self.ask(self.random.choice(self.addresses), 'GET', '/a')[0]}")
            time.sleep(0.02)

    def kill(self):
        """Functions and extensions: neither the guard nor the service."""
        while self.goes_on():
            time.sleep(self.random.uniform(0.2, 2))
            found = [pid for pid in children(self.up.process.pid)
                     if re.search("runtime.py|/extension", command_of(pid))]
            if found:
                try:
                    os.kill(self.random.choice(found), signal.SIGKILL)
                    self.note("killed")
                except ProcessLookupError:
                    pass

    def kill_fronts(self):
        """A run of lambda_local up at a time, which is killed at any moment."""
        while self.goes_on():
            one = {"runtime": "python", "handler": "app.run", "timeout": 5}
            up = Up("--ready", "600", app=LEAVING, command=COMMAND, whole={"asynchronous": True}, functions=[
                {"name": "f", "url": True, **one}, {"name": "g", **one, "environments": 2}])
            time.sleep(self.random.choice((0.3, 1, 2, 4)) * self.random.uniform(0.5, 1.5))
            up.process.kill()
            gone = until(lambda: not any(map(up.is_here, filter(str.isdigit, os.listdir("/proc")))), 60)
            self.note("fronts killed" if gone else "fronts that left something")
            up.end(None)

    def follow(self):
        port = urllib.parse.urlsplit(self.up.endpoint).port
        come_and_go(port, random.Random(self.random.random()), self.goes_on, self.note)

    def is_followed(self):
        """Whether a follower that comes now is given the trace."""
        try:
            one = Follower(urllib.parse.urlsplit(self.up.endpoint).port)
            seen = one.tickets(10)[:3]
            one.leave()
        except (OSError, IndexError, ValueError):
            return False
        return seen == [0, 1, 2]

    def stall(self):
        """The log is not read for some seconds, now and then."""
        while self.goes_on():
            time.sleep(self.random.uniform(1, 5))
            self.up.reading.clear()
            time.sleep(self.random.uniform(0, 3))
            self.up.reading.set()


def left_out_of(lines):
    return sum(int(found[1].replace(",", "")) for line in lines
               if (found := re.search(r"([\d,]+) lines? \([\d,]+ bytes?\) (?:is|are) left out here", line)))


def chaos(seconds, seed=None):
    seed = random.randrange(1 << 32) if seed is None else seed
    print(f"     chaos for {seconds} s, seed {seed}", flush=True)
    one = Chaos(seconds, seed)
    pid = one.up.process.pid
    before = state_of(pid)
    together(one.send_events, one.send_events, one.call, one.call, one.get, one.kill, one.stall, one.kill_fronts,
             *[one.follow] * FOLLOWERS)
    one.up.reading.set()
    check("what was killed itself left nothing", one.counts["fronts that left something"], 0)
    check("lambda_local up is there after chaos", lives(pid), True)
    check("followers were given the trace, and without a gap",
          (one.counts["follower 200"] > 0, one.counts["lines followed"] > 0, one.counts["followers with a gap"]),
          (True, True, 0))
    check("one that comes then is, from the first entry on", until(one.is_followed, 60), True)
    ended = lambda: {found[1] for line in list(one.up.lines) if (found := EVENT.search(line)) and OVER.search(found[2])}
    until(lambda: set(one.taken) <= ended() or left_out_of(list(one.up.lines)), 120)
    after = state_of(pid)
    check("descriptors return", after[0] <= before[0] + 70, True)  # (64 idle connections to the service are kept)
    check("memory returns (MB)", (after[1] - before[1]) >> 10 < 100, True)
    one.up.process.terminate()
    until(lambda: one.up.process.poll() is not None, 150)
    replays = replays_of(os.path.join(one.up.at, "saved"))
    status, left = one.up.end(None)
    check("it ends in order, and nothing is left", (status, left), (0, []))
    check("the history replays", replays, True)
    tell_of_events(one, before, after)


def replays_of(path):
    program = os.environ.get("LAMBDA_LOCAL_PROGRAM") or os.path.join(ROOT, "lambda_local")
    with open(path) as file:
        history = file.read()
    done = subprocess.run([program, "replay"], input=history, capture_output=True, text=True)
    return done.returncode == 0 and done.stdout.splitlines() == [
        line[2:] for line in history.splitlines() if line.startswith("# ")]


def tell_of_events(one, before, after):
    over = collections.Counter(found[1] for line in one.up.lines
                               if (found := EVENT.search(line)) and OVER.search(found[2]))
    lost_lines = left_out_of(one.up.lines)
    print(f"     {dict(one.counts)}; {len(one.taken)} events taken, {lost_lines} lines left out; "
          f"descriptors {before[0]} -> {after[0]}, memory {before[1]} -> {after[1]} kB", flush=True)
    check("no event ended twice", [name for name, count in over.items() if count > 1], [])
    missing = [name for name in one.taken if name not in over]
    check("each event ended, or the line that says so was counted as left out", len(missing) <= lost_lines, True)
