"""Checks ./lambda_local in copies of the checkout that release the program: what it says, which program it starts, that
it starts at once, and what it notices. The program is LAMBDA_LOCAL_PROGRAM, else what ./lambda_local finds. Ends with
'N passed, M failed'."""
import json
import os
import re
import resource
import shutil
import signal
import statistics
import subprocess
import sys
import tempfile
import time

from tests import ROOT
from tests.library import stub_kits, trees
from tests.library.cases import Case
from tests.library.trees import RELEASED, copied, plain, program, release, text_of, write
from tests.library.up_kit import until

OTHER_USER = 65534
SOURCE = "crates/lambda_local/src/main.rt"
UNPACKED = "unpacked the released program of these sources, once"
NO_PROGRAM = "there is no program of these sources"
OTHER_LOGIC = "has another logic"
TOOLS = ("check", "conformance", "from_template", "rerun", "timeline", "up")
COMMANDS = ("serve", "replay", "trace", "explain", "path", "build", "stamp", *TOOLS)


def run(root, *words, cwd=None, launcher="lambda_local", **more):
    """What the launcher of a copy ends with: its status, and what it wrote on both streams."""
    return trees.run([os.path.join(root, launcher), *words], cwd or root, **more)


def first_call(root, **more):
    """Status, whether the answers are those of the first example, and what was said beside them."""
    return trees.first_call([os.path.join(root, "lambda_local")], cwd=root, **more)


class Launcher(Case):
    def test_a_fresh_clone_unpacks_the_program_once_and_starts_it_by_each_name(self):
        with copied() as root:
            status, right, said = first_call(root)
            self.check("a fresh clone answers", (status, right), (0, True))
            self.check("and says once that it unpacked the program", (said.count("\n"), UNPACKED in said), (1, True))
            for time_of_it in ("the second", "the third"):
                self.check(f"{time_of_it} start says nothing", first_call(root), (0, True, ""))
            where = os.path.join(root, RELEASED)
            self.check("path prints the program", run(root, "path"), (0, where + "\n", ""))
            self.check("replay by its name", run(root, "replay", stdin=text_of(ROOT, "examples", "first_call.txt"))[0],
                       0)
            for words in (["trace"], ["trace", "--bodies", "none"]):
                status, output, said = run(root, *words, stdin=text_of(ROOT, "examples", "first_call.txt"))
                self.check(f"{' '.join(words)}: a line for each entry", (status, output.count("\n"), said), (0, 3, ""))
            link = os.path.join(root, "linked")
            os.symlink(os.path.join(root, "lambda_local"), link)
            self.check("through a link, from another folder", run(root, "path", launcher="linked", cwd="/"),
                       (0, where + "\n", ""))
            there = {"LAMBDA_LOCAL_PROGRAM": os.path.join(root, "lambda_local")}
            self.check("the launcher as LAMBDA_LOCAL_PROGRAM is the launcher", first_call(root, **there), (0, True, ""))
            other = {"LAMBDA_LOCAL_PROGRAM": "/bin/echo"}
            self.check("LAMBDA_LOCAL_PROGRAM is used as it is", run(root, "serve", "a b.json", **other),
                       (0, "serve a b.json\n", ""))
            self.check("and is the path", run(root, "path", **other), (0, "/bin/echo\n", ""))

    def test_a_start_costs_less_than_50_ms_of_CPU_time(self):
        """Checks the CPU time, which other work on this machine does not affect."""
        with copied() as root:
            first_call(root)
            first_call(root)
            seconds, whole = [], []
            for _ in range(9):
                before, began = resource.getrusage(resource.RUSAGE_CHILDREN), time.monotonic()
                run(root, "path")
                after = resource.getrusage(resource.RUSAGE_CHILDREN)
                whole.append(time.monotonic() - began)
                seconds.append(after.ru_utime + after.ru_stime - before.ru_utime - before.ru_stime)
            print(f"     ({1000 * statistics.median(seconds):.0f} ms of CPU time, "
                  f"{1000 * statistics.median(whole):.0f} ms)")
            self.check("a start costs less than 50 ms of CPU time", statistics.median(seconds) < 0.05)

    def test_each_tool_has_its_help_and_what_is_no_command_is_refused(self):
        with copied() as root:
            status, output, said = run(root, "--help")
            self.check("--help", (status, said), (0, ""))
            self.check("names each command", [it for it in COMMANDS if not re.search(rf"\b{it}\b", output)], [])
            self.check("-h is the same", run(root, "-h")[1], output)
            self.check("from_template --help", run(root, "from_template", "--help")[0], 0)
            for tool in sorted({*TOOLS} - {"from_template"}):
                status, output, said = run(root, tool, "--help")
                self.check(f"{tool} --help", (status, f"lambda_local {tool} " in output, said), (0, True, ""))
                self.check("has no other name for a tool", re.findall(r"tools/\w+", output), [])
            for words in (["nothing"], ["serve"], ["replay", "file"], ["trace", "file"], ["trace", "--bodies", "all"],
                          ["serve", "a", "b"], ["path", "x"], ["--quick"]):
                status, output, said = run(root, *words)
                wanted = ("serve takes one file: lambda_local serve CONFIGURATION" if words[0] == "serve" else
                          "'" + " ".join(words) + "' is not one of its commands: --help lists them")
                fine = (status, output, said) == (2, "", f"lambda_local: {wanted}\n")
                self.check(f"'{' '.join(words)}' is refused with a line", fine, shown=(status, output, said))
            self.check("nothing was unpacked for that", os.path.exists(os.path.join(root, RELEASED)), False)

    def test_the_version_names_the_program(self):
        with copied() as root:
            status, output, said = run(root, "--version")
            lines = output.splitlines()
            self.check("--version", (status, lines[0].split(" ")[0], [line.split(" ")[0] for line in lines[1:]]),
                       (0, "lambda_local", ["sources", "kit", "program", "gate"]))
            named = run(root, "--version", LAMBDA_LOCAL_PROGRAM="/bin/echo")
            self.check("of a program that is named", named, (0, "lambda_local, the program /bin/echo\n", ""))

    def test_a_source_that_changed_is_noticed_and_nothing_is_served(self):
        """What was looked at and has changed since."""
        with copied() as root:
            first_call(root)
            first_call(root)
            path, before = os.path.join(root, SOURCE), text_of(root, SOURCE)
            times = os.stat(path)
            write(path, before.replace("a", "b", 1).encode())
            os.utime(path, ns=(times.st_atime_ns, times.st_mtime_ns))
            status, output, said = run(root, "path")
            self.check("a source of the same size and time is noticed", (status, output, NO_PROGRAM in said),
                       (4, "", True))
            status, output, said = run(root, "serve", "examples/service.json")
            self.check("and nothing is served", (status, output, NO_PROGRAM in said, said.count("\n")),
                       (4, "", True, 1))
            write(path, before.encode())
            self.check("once it is back, so is the program", first_call(root), (0, True, ""))
            more = os.path.join(root, "crates", "lambda_local", "src", "more.rt")
            write(more, b"")
            self.check("a further source is noticed", run(root, "path")[0], 4)
            os.remove(more)
            self.check("and that it is gone", first_call(root), (0, True, ""))
            write(os.path.join(root, RELEASED), b"#!/bin/sh\nexit 9\n", 0o755)
            status, right, said = first_call(root)
            self.check("another program in its place is noticed", (status, right, UNPACKED in said), (0, True, True))
            shutil.move(root, root + " moved")
            self.check("a clone that was moved", first_call(root + " moved"), (0, True, ""))

    def test_another_logic_of_the_kit_is_told_once(self):
        """The kit's rt on the path: a program is of its sources, whichever kit is here. Another logic is told once."""
        with copied() as root, tempfile.TemporaryDirectory() as folder:
            kit = stub_kits.StubKit(folder, "the kit that proved it")
            first_call(root)
            first_call(root)
            notes = os.path.join(root, os.path.dirname(RELEASED), "looked_at")
            for name in ("the kit that proved it", "a kit of another letter"):
                kit = stub_kits.StubKit(folder, name)
                self.check(f"{name} says nothing", first_call(root, PATH=kit.path), (0, True, ""))
                before = os.stat(notes)
                self.check("nor later", first_call(root, PATH=kit.path), (0, True, ""))
                self.check("the choice is known", os.stat(notes).st_mtime_ns, before.st_mtime_ns)
            self.check("without a kit it starts too", first_call(root), (0, True, ""))
            self.check("and the choice is known", os.stat(notes).st_mtime_ns, before.st_mtime_ns)
            kit = stub_kits.StubKit(folder, "a kit of another logic")
            status, right, said = first_call(root, PATH=kit.path)
            self.check("another logic is told", (status, right, OTHER_LOGIC in said, said.count("\n")),
                       (0, True, True, 1))
            self.check("once", first_call(root, PATH=kit.path), (0, True, ""))
            self.check("also after a start without it", (first_call(root), first_call(root, PATH=kit.path)),
                       ((0, True, ""), (0, True, "")))
            release(root, program(), "rattle-kit-1 logic 1")
            os.remove(os.path.join(root, RELEASED))
            status, right, said = first_call(root, PATH=kit.path)
            self.check("a release that it proved is taken without that", (status, right, OTHER_LOGIC in said),
                       (0, True, False))
            self.check("no kit was asked for anything", kit.asked(), [])

    def test_a_build_that_is_asked_to_end_leaves_nothing(self):
        """A build that is asked to end: here the kit's rt would prove for long."""
        with copied() as root, tempfile.TemporaryDirectory() as kit:
            write(f"{kit}/bin/rt", b'#!/bin/sh\n[ "$1" != version ] || exec echo rattle-kit-1\necho $$ '
                                   b'>"$KIT_PROVES"\nexec sleep 300\n', 0o755)
            proves, room = os.path.join(kit, "proves"), os.path.join(kit, "room")
            os.mkdir(room)
            variables = plain(PATH=f"{kit}/bin:/usr/bin:/bin", KIT_PROVES=proves, TMPDIR=room)
            for words, begins in ((["build"], "proving the program and the"), (["build", "--quick"], "without proof")):
                child = subprocess.Popen([os.path.join(root, "lambda_local"), *words], cwd=root, env=variables,
                                         stderr=subprocess.PIPE, text=True)
                assert child.stderr
                try:
                    self.check(f"{' '.join(words)} says what it does", begins in child.stderr.readline())
                    until(lambda: os.path.exists(proves) and text_of(proves).endswith("\n"), 60)
                    rt = int(text_of(proves))
                    child.terminate()
                    self.check("TERM ends the build", child.wait(60), 128 + signal.SIGTERM)
                    self.check("and the kit's process", os.path.exists(f"/proc/{rt}"), False)
                    self.check("and nothing is left", os.listdir(room), [])
                    os.remove(proves)
                finally:
                    child.kill()
                    child.wait()
                    child.stderr.close()

    def test_a_clone_that_its_user_cannot_write_is_started_from_the_cache(self):
        """A clone that its user cannot write: another user's, for root; else one without the right to."""
        user = OTHER_USER if os.getuid() == 0 else None
        with copied() as root, tempfile.TemporaryDirectory() as home:
            if user is None:
                subprocess.run(["chmod", "-R", "a-w", root], check=True)
            else:
                os.chown(home, user, user)
            mine, moved = {"HOME": home, "user": user}, os.path.join(home, "moved")
            try:
                status, right, said = first_call(root, **mine)
                self.check("a clone that cannot be written answers", (status, right, UNPACKED in said), (0, True, True))
                self.check("from the user's cache", run(root, "path", **mine),
                           (0, f"{home}/.cache/lambda_local{root}/lambda_local\n", ""))
                self.check("a further start says nothing", first_call(root, **mine), (0, True, ""))
                self.check("the clone has nothing of it", os.path.exists(os.path.join(root, os.path.dirname(RELEASED))),
                           False)
                self.check("the cache is the user's alone", oct(os.stat(f"{home}/.cache").st_mode & 0o777), "0o700")
                named = run(root, "path", XDG_CACHE_HOME=moved, **mine)[:2]
                self.check("XDG_CACHE_HOME names the cache", named, (0, f"{moved}/lambda_local{root}/lambda_local\n"))
                status, output, said = run(root, "path", user=user, HOME="/nonexistent")
                self.check("no folder to write is told", (status, output, "XDG_CACHE_HOME" in said
                                                          and said.count("\n")),
                           (4, "", 1))
            finally:
                subprocess.run(["chmod", "-R", "u+w", root], check=True)
            if user is not None:
                first_call(root)
                others = run(root, "path", user=user, HOME="/nonexistent")
                self.check("what the owner unpacked serves others", others, (0, f"{root}/{RELEASED}\n", ""))

    def test_serve_becomes_the_program_so_that_signals_reach_it(self):
        """The launcher becomes the program, so that signals reach it."""
        with copied() as root:
            first_call(root)
            sys.path.insert(0, os.path.join(root, "tools"))
            from lambda_local.service import free_ports
            invoke, port = free_ports(2, set())
            own = {"account": "123456789012", "region": "us-east-2", "invokePort": invoke,
                   "functions": [{"name": "f", "ports": [port]}]}
            write(os.path.join(root, "own.json"), json.dumps(own).encode())
            words = [os.path.join(root, "lambda_local"), "serve", "own.json"]
            child = subprocess.Popen(words, cwd=root, env=plain(), stderr=subprocess.PIPE, text=True)
            assert child.stderr
            try:
                self.check("serve listens", "listening" in child.stderr.readline())
                self.check("it is the program itself", os.readlink(f"/proc/{child.pid}/exe"),
                           os.path.join(root, RELEASED))
                child.terminate()
                self.check("TERM ends it", child.wait(20), -signal.SIGTERM)
            finally:
                child.kill()
                child.wait()
                child.stderr.close()

    def test_check_names_the_line_at_which_a_history_and_its_replay_differ(self):
        with copied() as root:
            first_call(root)
            history = text_of(ROOT, "examples", "timeout.txt")
            answers = sum(1 for line in history.splitlines() if re.match(r"# \d+ \d+ ", line))
            seen = run(root, "check", "examples/timeout.txt")
            self.check("a history with its own answers", seen,
                       (0, f"examples/timeout.txt: the replay gives the same {answers} answers\n", ""))
            changed = history.replace("# 3 3 done", "# 3 3 refused State")
            at = changed.splitlines().index("# 3 3 refused State") + 1
            status, output, said = run(root, "check", "-", stdin=changed)
            self.check("a changed answer is named with its line", (status, output, said),
                       (1, "", f"check: -: line {at}: the history has `3 3 refused State`, but the replay answers "
                               "`3 3 done`\n"))
            status, output, said = run(root, "check", "-", stdin=changed.replace("# 3 3 refused State\n", ""))
            self.check("a missing answer too", (status, f"line {at + 2}:" in said,
                                                "the replay answers `3 3 done`" in said),
                       (1, True, True))
            status, output, said = run(root, "check", "-", stdin=history + "# 99 99 done\n")
            self.check("and one too many", (status, "has `99 99 done`, but the replay ends before it" in said),
                       (1, True))

    def test_check_refuses_what_is_no_history_with_a_line(self):
        with copied() as root:
            first_call(root)
            history = text_of(ROOT, "examples", "timeout.txt")
            for name, text, word in (("a script without answers", text_of(ROOT, "examples", "first_call.txt"),
                                      "no answers to compare"),
                                     ("another text", "hello\n", "line 1 must be `form 2`"),
                                     ("nothing", "", "line 1 must be `form 2`"),
                                     ("a call that is none", history + "5000 nothing\n",
                                      f"script: line {len(history.splitlines()) + 1}"),
                                     ("and it is shown", history + "5000 nothing\n", "is not a call: `5000 nothing`: "
                                      "after its moment it must have one of invoke, next"),
                                     ("a line without a moment", history + "next 1\n",
                                      "is not a call: `next 1`: it must begin with its moment"),
                                     ("a call with wrong fields", history + "5000 next \x1b[2J\n",
                                      "`5000 next ?[2J`: docs/formats.md has the fields of next"),
                                     ("a configuration with a fault", history.replace('"timeout":2', '"timeout":902'),
                                      "line 1, the configuration: function f: timeout must be from 1 to 900 seconds")):
                status, output, said = run(root, "check", "-", stdin=text)
                self.check(f"{name} is refused with a line", (status, output, said.count("\n"), word in said),
                           (2, "", 1, True))
            status, output, said = run(root, "check", "no such file")
            self.check("a file that is not there", (status, output, said.count("\n"), "no such file" in said),
                       (2, "", 1, True))
            status, output, said = run(root, "check", "examples/timeout.txt",
                                       LAMBDA_LOCAL_PROGRAM="/nonexistent/program")
            self.check("a program that is not there", (status, output, said.count("\n"),
                                                       "/nonexistent/program" in said),
                       (4, "", 1, True))
