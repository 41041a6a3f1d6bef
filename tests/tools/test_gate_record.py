"""Checks what a gate keeps of a run: the CPU seconds of each crate, and which of them earlier runs proved; and what of
that comes into the tree. In small repositories, with commands in place of the prover."""
import contextlib
import io
import os
import shlex
import signal
import subprocess
import sys
import tempfile
import unittest
from typing import Dict, List
from unittest import mock

from tests import ROOT
from tests.library import crate_seconds, evidence, gate_record, records, refusals, second_root
from tests.library.cases import Case
from tests.library.checkout import module_of
from tests.library.crate_seconds import Costs
from tests.library.trees import commit, write

BUSY = "import os, time\nit = os.fork()\nwhile time.process_time() < 0.5: pass\nit and os.wait()\ntime.sleep(1)"
PASSED_OVER = " is passed over: it is of 0123456789, which HEAD does not continue"
PROVES = [sys.executable, "-c", BUSY, "--crate-name"]


class GateRecord(Case):
    def setUp(self) -> None:
        room = tempfile.TemporaryDirectory()
        self.addCleanup(room.cleanup)
        self.room, self.root = room.name, os.path.join(room.name, "tree")
        self.variables = {"XDG_STATE_HOME": os.path.join(self.room, "state")}
        state = mock.patch.dict(os.environ, self.variables)
        state.start()
        self.addCleanup(state.stop)

    def repository(self) -> None:
        """Two crates, the second over the first."""
        write(f"{self.root}/crates.txt", b"a:\nb: a\n")
        for crate in "ab":
            write(f"{self.root}/crates/{crate}/src/lib.rt", crate.encode())
        commit(self.root)

    def change(self, path: str, text: str) -> str:
        """Commits another text of a file. Returns the commit."""
        write(f"{self.root}/{path}", text.encode())
        commit(self.root)
        return refusals.git(self.root, "rev-parse", "--short=8", "HEAD")

    def text(self, path: str) -> str:
        return records.text_of(os.path.join(self.root, path))

    def run_of(self, *lines: str, proving: str = "") -> Costs:
        """What a run costs that prints these lines, after it has proved a crate."""
        words = [*PROVES, proving] if proving else ["true"]
        with subprocess.Popen(["sh", "-c", '"$@" & wait', "sh", *words], stderr=subprocess.DEVNULL) as ran:
            proofs = crate_seconds.Proofs(self.root, ran.pid)
            ran.wait()
            for line in lines:
                proofs.read(line)
            return proofs.end()

    def test_the_CPU_seconds_of_what_a_run_proves_are_kept(self) -> None:
        self.repository()
        costs = self.run_of("rt: b proved", "rt: b: its tests are proved", "rt: c proved", "fn b::f: proved",
                            proving="b")
        self.check("of what it proved, with what that started", [*costs.seconds] == ["b"]
                   and 0.8 < costs.seconds["b"] < 2, shown=costs)
        self.check("which was no earlier run", costs.earlier, [])
        self.check("a run that finds it proved", self.run_of("rt: b is kept: an earlier run on this machine proved it"),
                   Costs(costs.seconds, ["b"]))
        crate_seconds.note({f"a {crate_seconds.sum_of(self.root, 'a')}": 7.4})
        self.check("in the order of crates.txt", [*self.run_of().seconds.items()], [("a", 7), *costs.seconds.items()])
        self.check("a check that fails is not kept", self.run_of("rt: a NOT PROVED", proving="a").seconds["a"], 7)
        self.change("crates/b/proofs/b.antt", "it")
        self.check("other sources are another crate", self.run_of().seconds, {"a": 7})
        os.remove(f"{self.root}/crates/b/proofs/b.antt")
        self.check("until they are back", [*self.run_of().seconds], ["a", "b"])

    def test_the_table_is_bounded_and_strict(self) -> None:
        for number in range(crate_seconds.MOST + 5):
            crate_seconds.note({f"a {number:016x}": number})
        crate_seconds.note({f"b {0:016x}": 0.4, f"a {7:016x}": 70})
        with open(crate_seconds.of_machine(), "a", encoding="utf-8") as file:
            file.write("rubbish\nc 1 2\n")
        crate_seconds.note({})
        found: Dict[str, int] = crate_seconds.read()
        self.check("of each crate the latest", ([it for it in found if it[0] == "a"][-2:], f"a {4:016x}" in found,
                                                len(found)),
                   ([f"a {24:016x}", f"a {7:016x}"], False, crate_seconds.MOST + 1))
        self.check("each as it was noted last", (found[f"a {7:016x}"], found[f"b {0:016x}"]), (70, 0))

    def test_a_command_is_followed(self) -> None:
        told = 'echo "rt: arn_ids proved"; echo 1 passed, 1 failed; exit 3'
        words = ["sh", "-c", f'"$@"; {told}', "sh", *PROVES, "arn_ids"]
        ran = self.gate("--following", *words)
        self.check("its lines, and its status", (ran.stdout.splitlines(), ran.returncode),
                   (["rt: arn_ids proved", "1 passed, 1 failed"], 3))
        name = f"arn_ids {crate_seconds.sum_of(ROOT, 'arn_ids')}"
        self.check("what it proved is kept", [*crate_seconds.read()], [name])
        ran = self.gate("--follow", "true")
        self.check("another option is refused", (ran.returncode, "usage: tests/gate" in ran.stdout), (2, True))
        with subprocess.Popen([f"{ROOT}/tests/gate", "--following", "sh", "-c", "echo $$; exec sleep 60"],
                              stdout=subprocess.PIPE, text=True) as gate:
            assert gate.stdout
            started = int(gate.stdout.readline())
            gate.send_signal(signal.SIGTERM)
            self.check("it ends with what it follows", (gate.wait(30), os.path.exists(f"/proc/{started}")),
                       (143, False))

    def gate(self, *words: str) -> "subprocess.CompletedProcess[str]":
        return subprocess.run([f"{ROOT}/tests/gate", *words], stdout=subprocess.PIPE, text=True, timeout=600,
                              env={**os.environ, **self.variables})

    def test_the_words_of_the_gate_are_those_of_the_proofs(self) -> None:
        write(f"{self.room}/bin/rt", b'#!/bin/sh\necho "$@"\n', 0o755)
        self.variables["PATH"] = f"{self.room}/bin:{os.environ['PATH']}"
        for words in (["arn_ids"], ["--anew"], ["--anew", "arn_ids", "script"]):
            ran = self.gate(*words)
            self.check(f"{words}", (ran.stdout, ran.returncode), (f"ci {' '.join(words)}\n", 0))

    def test_what_a_root_of_tables_proves_is_kept(self) -> None:
        proves, program = shlex.join([*PROVES, "arn_ids"]), "crates/checks/out/checks"
        write(f"{self.room}/bin/rt", f'#!/bin/sh\n{proves}; echo "rt: arn_ids proved"; install -D "$0" {program}\n'
              .encode(), 0o755)
        second_root.make(f"{self.room}/root", "checks")
        with mock.patch.dict(os.environ, PATH=f"{self.room}/bin:{os.environ['PATH']}"):
            made = second_root.prove(f"{self.room}/root", "checks")
        self.check("its program", made, f"{self.room}/root/{program}")
        self.check("what it proved", [*crate_seconds.read()], [f"arn_ids {crate_seconds.sum_of(ROOT, 'arn_ids')}"])

    def test_a_gate_keeps_what_its_proofs_cost(self) -> None:
        gate = module_of("tests", "gate")
        crate_seconds.note({f"arn_ids {crate_seconds.sum_of(ROOT, 'arn_ids')}": 7})
        self.addCleanup(signal.signal, signal.SIGTERM, signal.getsignal(signal.SIGTERM))
        for ended, whole, status in (("3 passed, 0 failed", "8 passed, 0 failed", 0),
                                     ("no more", "5 passed, 1 failed", 1),
                                     ("2 passed, 1 failed", "7 passed, 1 failed", 1)):
            proofs = ["sh", "-c", f'"$@"; echo "rt: script proved"; echo {ended}', "sh", *PROVES, "script"]
            printed = io.StringIO()
            with mock.patch.multiple(gate, PROOFS=proofs, PARTS=(proofs, ["echo", "5 passed, 0 failed"])), \
                    mock.patch.object(gate_record, "told", lambda *_: ""), mock.patch.object(sys, "argv", ["gate"]), \
                    contextlib.redirect_stdout(printed):
                ran = gate.main()
            said = printed.getvalue()
            self.check(f"{ended}: the parts together", (said.splitlines()[-1], ran), (whole, status), shown=said)
        seconds = crate_seconds.read()[f"script {crate_seconds.sum_of(ROOT, 'script')}"]
        record = records.text_of(os.path.join(records.folder(), "GATE"))
        self.check("its record", [gate_record.line_of(record, it) for it in ("crate_seconds", "earlier_crates")],
                   [f"arn_ids 7, script {seconds}", "arn_ids"])
        self.check("which is of no gate from scratch",
                   os.path.exists(os.path.join(records.folder(), "FROM_SCRATCH")), False)

    def test_what_a_record_says(self) -> None:
        self.repository()
        for costs, wanted in ((Costs({}, []), ["crate_seconds "]),
                              (Costs({"a": 5, "b": 62}, []), ["crate_seconds a 5, b 62"]),
                              (Costs({"a": 5, "b": 62}, ["a"]), ["crate_seconds a 5, b 62", "earlier_crates a"])):
            with mock.patch.object(gate_record, "told", lambda *_: ""):
                lines: List[str] = [*gate_record.lines_of(self.root, 3, 2, costs, 9)]
            self.check("its costs", [it for it in lines if "crate" in it], wanted)

    def test_the_last_gate_from_scratch_comes_into_the_tree(self) -> None:
        self.repository()
        first = self.change("page.md", "first")
        second = self.change(gate_record.SCRATCH, f"commit {first}\ngate 1 passed, 0 failed\n")
        for at, wanted in ((second, True), (first, False), ("0123456789", False)):
            told = self.kept("FROM_SCRATCH", f"commit {at}\nprogram 1\ngate 2 passed, 0 failed\n")
            self.check(f"a record of {at} is kept", told, [f"{gate_record.SCRATCH}: the gate at {at}"] * wanted
                       + [f"FROM_SCRATCH{PASSED_OVER}"] * (at not in (first, second)))
        self.check("the newest stands there", gate_record.line_of(self.text(gate_record.SCRATCH), "commit"), second)

    def kept(self, name: str, record: str) -> List[str]:
        write(os.path.join(records.folder(), name), record.encode())
        return [*gate_record.keep_in_tree(self.root, records.folder())]

    def test_the_costs_of_all_crates_come_into_the_tree(self) -> None:
        self.repository()
        write(f"{self.root}/{gate_record.COSTS}", f"# Costs\n{gate_record.MARK}\nmore\n".encode())
        self.check("none are told of", "there is no .ci/CRATE_SECONDS yet" in evidence.age_of_costs(self.root))
        first = self.change("page.md", "first")
        second = self.change("page.md", "second")
        told = f"{gate_record.CRATES} and {gate_record.COSTS}: those at {second}"
        unknown = (f"{gate_record.CRATES} stays as it is: at {second} no run has kept the CPU seconds of "
                   "a (tests/gate --anew NAME .. keeps them)")
        for what, at, costs, wanted in (("one is not known", second, "b 620", [unknown]),
                                        ("all are", second, "a 5, b 620", [told]),
                                        ("an earlier gate", first, "a 6, b 600", []),
                                        ("one of another history", "0123456789", "a 6, b 600",
                                         [f"GATE{PASSED_OVER}"])):
            record = f"commit {at}\nday 2026-12-01\nminutes 9\ncrate_seconds {costs}\nearlier_crates b\n"
            self.check(what, self.kept("GATE", record), wanted)
        self.check("they are kept", self.text(gate_record.CRATES),
                   f"commit {second}\nday 2026-12-01\ncrate_seconds a 5, b 620\nearlier_crates b\n")
        page = self.text(gate_record.COSTS)
        self.check("the page has them", page, f"# Costs\n{gate_record.MARK}`b` 620, `a` 5: 10 CPU minutes in all, at "
                   f"{second}; 10 of them in other runs on that machine than its gate, which proved `b`.\n\nmore\n")
        self.check("and may not tell otherwise", [len([*evidence.costs(self.root, page.replace("620", figure))])
                                                  for figure in ("620", "610")], [0, 1])
        self.check("their age is told", evidence.age_of_costs(self.root),
                   f"10 CPU minutes of all crates were recorded at {second}, 0 commits ago, 0 of which changed sources "
                   "of crates")

    def test_a_run_after_the_gate_completes_its_costs(self) -> None:
        self.repository()
        at = self.change("page.md", "first")
        crate_seconds.note({f"{it} {crate_seconds.sum_of(self.root, it)}": 5 for it in "ab"})
        record = f"commit {at}\ncrate_seconds b 620\n"
        write(f"{self.root}/crates/b/src/lib.rt", b"another")
        self.check("not if crates have changed since", "no run has kept the CPU seconds of a " in "".join(
            self.kept("GATE", record)))
        write(f"{self.root}/crates/b/src/lib.rt", b"b")
        self.kept("GATE", record)
        self.check("by what it proved", self.text(gate_record.CRATES),
                   f"commit {at}\ncrate_seconds a 5, b 620\nearlier_crates a\n")

    def test_no_gate_is_needed_for_the_costs(self) -> None:
        self.repository()
        at = self.change("page.md", "first")
        for crate, wanted in (("a", f"{gate_record.CRATES} stays as it is: at {at} no run has kept the CPU seconds of "
                                    "b (tests/gate --anew NAME .. keeps them)"),
                              ("b", f"{gate_record.CRATES} and {gate_record.COSTS}: those at {at}")):
            crate_seconds.note({f"{crate} {crate_seconds.sum_of(self.root, crate)}": 5})
            self.check(crate, [*gate_record.keep_in_tree(self.root, records.folder())], [wanted])
        self.check("they are kept", self.text(gate_record.CRATES).splitlines()[-2:],
                   ["crate_seconds a 5, b 5", "earlier_crates a, b"])

    def test_what_a_page_says_of_costs(self) -> None:
        record = "commit 1\ncrate_seconds a 5, b 620, c 30\ngate 1 passed, 0 failed\n"
        page = f"# Costs\n{gate_record.MARK}`a` 1\n\nmore\n"
        self.check("the most expensive first", gate_record.with_costs(page, record), f"# Costs\n{gate_record.MARK}"
                   "`b` 620, `c` 30, `a` 5: 11 CPU minutes in all, at 1.\n\nmore\n")
        self.check("all of earlier runs", "which proved all crates." in gate_record.with_costs(
            page, record + "earlier_crates a, b, c\n"))
        self.check("it stays without them", gate_record.with_costs(page, "commit 1\n"), page)
        bare = f"# Costs\n{gate_record.MARK}\nmore\n"
        none = gate_record.with_costs(bare, "commit 1\n")
        self.check("one that has none says so", none, f"# Costs\n{gate_record.MARK}{gate_record.NONE}\nmore\n")
        self.check("until there are some", gate_record.with_costs(none, record), gate_record.with_costs(bare, record))


if __name__ == "__main__":
    unittest.main()
