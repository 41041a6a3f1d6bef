"""Checks Python runtimes that ./lambda_local up forks from a process with their imports: each is what a fresh
interpreter would be, ends as one would, is below the guard, and shares nothing with the others. Ends with 'N passed, M
failed'."""
import os
import signal
from typing import Dict

from tests.library.cases import Case
from tests.library.trees import write
from tests.library.up_kit import Up, children, command_of, lives, until

APP = r'''import os, random, sys
LOADED = sorted(sys.modules)
STATE = {"count": 0}
import colorsys
def run(event, context):
    do = event.get("do")
    if do == "crash": os._exit(7)
    if do == "exit":
        import atexit, threading
        atexit.register(print, "at the end")
        threading.Timer(0.2, print, ["a thread that is waited for"]).start()
        sys.stdout.write("what was not written yet ")
        sys.exit(5)
    if do == "signal": os.kill(os.getpid(), 11)
    if do == "later": import threading; threading.Timer(0.2, os._exit, [9]).start()
    if do == "child":
        import subprocess
        return subprocess.Popen(["sleep", "7773"], start_new_session=True).pid
    if do == "hang": import time; time.sleep(60)
    if do == "count": STATE["count"] += 1; return STATE["count"]
    if do == "random": return [os.getpid(), random.random(), hash("a text")]
    if do == "main":
        import __main__, inspect
        return [__main__.__name__, os.path.basename(__main__.__file__), callable(__main__.serve),
                bool(inspect.getsource(__main__.serve))]
    if do == "describe":
        named = ("AWS_LAMBDA_RUNTIME_API", "AWS_LAMBDA_LOG_STREAM_NAME")
        with open("/proc/self/environ", "rb") as file:
            file.read()
        return {"modules": LOADED, "argv": sys.argv, "path": sys.path, "directory": os.getcwd(),
                "flags": list(sys.flags),
                "executable": sys.executable, "prefix": sys.prefix, "sid": os.getsid(0) == os.getpid(),
                "environment": sorted(name for name in os.environ), "own": len([os.environ[name] for name in named]),
                "values": {name: value for name, value in os.environ.items() if name not in named},
                "streams": [(stream.encoding, stream.errors, stream.line_buffering, stream.write_through,
                             stream.fileno()) for stream in (sys.stdin, sys.stdout, sys.stderr)],
                "open": sorted(os.readlink(f"/proc/self/fd/{number}").split(":")[0]
                               for number in os.listdir("/proc/self/fd")
                               if os.path.exists(f"/proc/self/fd/{number}")),
                "umask": os.umask(0o022), "nice": os.nice(0)}
    return os.getpid()
'''
FUNCTION = {"name": "f", "runtime": "python", "handler": "app.run", "timeout": 2, "variables": {"OF_ALL": "1"}}
SERVER = "forker.py"


def up_of(*options, environ=None, files={}, functions=None, **members):
    return Up(*options, app=APP, functions=functions or [{**FUNCTION, **members}], environ=environ, files=files)


def parent_of(pid):
    try:
        with open(f"/proc/{pid}/stat") as file:
            return int(file.read().rpartition(")")[2].split()[1])
    except OSError:
        return 0


def with_its_line(up):
    """The process that forks, and those that it has forked, which have its command line."""
    return [pid for pid in children(up.process.pid) if SERVER in command_of(pid)]


def forkers(up):
    """Whichever came first."""
    return sorted(with_its_line(up))[:1]


def again(up):
    """The environment has its next process."""
    seen = up.count("exited")
    up.invoke(do="crash")
    until(lambda: up.count("exited") > seen, 20)


class Forking(Case):
    def test_a_forked_runtime_is_the_same_as_a_fresh_one(self):
        seen = {}
        for switch in ("0", "1"):
            up = up_of(environ={**os.environ, "LAMBDA_LOCAL_FORK": switch})
            up.until("ready")
            again(up)
            again(up)
            seen[switch] = up.invoke(patience=20, do="describe")[0]
            self.check(f"LAMBDA_LOCAL_FORK={switch}", with_its_line(up) != [], switch == "1")
            main = up.invoke(patience=20, do="main")[0]
            self.check("the runtime is the main module", main, ["__main__", "runtime.py", True, True])
            self.check("nothing is left", up.end(), (0, []))
        fresh, other = seen["0"], seen["1"]
        # (UP.json's folder, the service's ports and the identifiers of requests are those of another run)
        for place in (fresh, other):
            for name in ("LAMBDA_LOCAL_FORK", "LAMBDA_LOCAL_PROCESS", "LAMBDA_TASK_ROOT", "PWD", "_X_AMZN_TRACE_ID"):
                place["values"].pop(name, None)
            place["values"] = {name: value for name, value in place["values"].items() if "127.0.0.1" not in value}
            place["path"], place["directory"] = place["path"][1:], place["path"][0] == place["directory"]
        for name in sorted(fresh):
            self.check(f"a forked runtime's {name} is a fresh one's", other[name], fresh[name])

    def test_forked_environments_share_no_state(self):
        up = up_of(environments=4)
        up.until("ready")
        self.check("of four environments three are forked, by a fourth process", len(with_its_line(up)), 4)
        draws: Dict[int, float] = {}
        for _ in range(60):
            pid, number, _ = up.invoke(patience=20, do="random")[0]
            draws.setdefault(pid, number)
        self.check("no two draw the same random number", len(set(draws.values())), len(draws))
        for _ in range(2):
            again(up)
        counts = [up.invoke(patience=20, do="count")[0] for _ in range(3)]
        self.check("each has its handler's own state", counts[0] in (1, 2, 3) and max(counts) <= 3)
        up.end()

    def test_what_is_forked_ends_as_what_is_fresh(self):
        up = up_of()
        up.until("ready")
        again(up)
        for do, said in (("crash", "exit status 7"), ("exit", "exit status 5"),
                         ("signal", "signal: segmentation fault"),
                         ("later", "exit status 9")):
            up.invoke(patience=20, do=do)
            self.check(f"{do}: its end is told", up.until(said, 20))
        self.check("an exit ends as an interpreter's does", [up.has(text) for text in (
            "a thread that is waited for", "at the end", "what was not written yet")], [True, True, True])
        child = up.invoke(patience=20, do="child")[0]
        pid = up.invoke(patience=20)[0]
        self.check("it is below the guard", parent_of(parent_of(pid)), up.process.pid)
        self.check("what it has started lives", lives(child))
        up.invoke(patience=20, do="hang")
        self.check("and ends with it", until(lambda: not lives(child), 10))
        pid = up.invoke(patience=20)[0]
        for forker in forkers(up):
            os.kill(forker, signal.SIGKILL)
        again(up)
        self.check("without the one that forks, a fresh one is started", isinstance(up.invoke(patience=20)[0], int))
        pid = up.invoke(patience=20)[0]
        up.process.kill()
        self.check("what is forked ends with lambda_local up", until(lambda: not lives(pid), 10))
        up.end(None)

    def test_each_function_has_its_own_interpreter(self):
        """Functions with other variables have other interpreters; one that has threads at its start forks nothing."""
        two = [{**FUNCTION, "name": name, "environments": 2, "variables": {"PYTHONHASHSEED": seed}}
               for name, seed in (("f", "1"), ("g", "2"))]
        up = up_of(functions=two)
        up.until("ready")
        seeds = {name: {up.invoke(name, 20, do="random")[0][2] for _ in range(6)} for name in ("f", "g")}
        self.check("each function has its own interpreter's seed", (len(seeds["f"]), len(seeds["g"]),
                                                                    seeds["f"] != seeds["g"]),
                   (1, 1, True))
        up.end()

    def test_an_interpreter_with_threads_forks_nothing(self):
        site = "import threading, time\nthreading.Thread(target=time.sleep, args=(600,), daemon=True).start()\n"
        for name, text, count in (("that begins with threads", site, 0), ("with the function's own path", "", 2)):
            up = Up(app=APP, functions=[{**FUNCTION, "environments": 2, "variables": {"PYTHONPATH": "site"}}],
                    prepare=lambda at: write(f"{at}/site/sitecustomize.py", text.encode()))
            self.check(f"an interpreter {name}", (up.until("ready"), len(with_its_line(up))), (True, count))
            path = up.invoke(patience=20, do="describe")[0]["path"]
            self.check("its path", f"{up.at}/site" in path)
            up.end()
