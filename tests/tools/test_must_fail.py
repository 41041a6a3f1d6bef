"""Checks how the gate judges must-fail edits, which it tries anew and what it keeps: by what the prover prints, in
small repositories, and with commands in place of the prover."""
import contextlib
import io
import os
import tempfile
import unittest
from typing import Dict, List
from unittest import mock

from tests.library import edits, evidence, gate_record, refusals, trials
from tests.library.cases import Case
from tests.library.checkout import module_of
from tests.library.trees import commit, write

NAMES_ALONE = ["./proofs/set/waiting/Answers.antt:7:23: error: `returns`: `c` has no field `then-is_awaited`",
               "note: proofs/set/waiting/Answers.antt:9:1: `then-is_awaited` is not in scope",
               "fn a::set::waiting: not proved", "only=3 proved=2"]
BY_PROMISE = ["./proofs/names/is_here/Answers.antt:8:47: error: `returns`: the types first differ where one has `t`",
              "  expected type `Path Bool a b`", "fn a::names::is_here: not proved", "only=3 proved=2"]
PARTLY = [NAMES_ALONE[0], "note: src/names.rt:132:1: it is not proved that what the function ensures holds",
          *NAMES_ALONE[2:]]
BY_SEARCH = ["fn a::parse: no proof: expected answers in ./proofs/parse/Answers.antt; `search` did not prove `returns`",
             "only=2 proved=1"]
EDIT = "file: src/lib.rt\nold: one\nnew: two\n"
TWINNED = EDIT + "same: 1\n"


def repository(folder: str) -> None:
    """Three crates, the second over the first, with edits; one has a twin."""
    write(f"{folder}/crates.txt", b"a:\nb: a\nc:\n")
    for crate, edit in (("a", EDIT), ("b", TWINNED), ("c", EDIT)):
        write(f"{folder}/crates/{crate}/src/lib.rt", b"fn f() { one }\n")
        write(f"{folder}/tests/must_fail/{crate}/e.edit", edit.encode())
    commit(folder)


def change(folder: str, path: str, text: str) -> str:
    """Commits another text of a file. Returns the commit."""
    write(f"{folder}/{path}", text.encode())
    commit(folder)
    return head(folder)


def head(folder: str) -> str:
    return refusals.git(folder, "rev-parse", "--short=8", "HEAD")


def note(path: str, lines: List[str]) -> None:
    write(path, "".join(f"{it}\n" for it in lines).encode())


class MustFail(Case):
    def setUp(self) -> None:
        room = tempfile.TemporaryDirectory()
        self.addCleanup(room.cleanup)
        self.room, self.root = room.name, os.path.join(room.name, "tree")
        state = mock.patch.dict(os.environ, {"XDG_STATE_HOME": os.path.join(self.room, "state")})
        state.start()
        self.addCleanup(state.stop)

    def test_a_verdict_is_by_what_the_prover_says(self) -> None:
        for what, status, lines, words in (
                ("a promise that no longer holds", 1, BY_PROMISE, ""), ("a search that fails", 1, BY_SEARCH, ""),
                ("a promise, and names beside it", 1, PARTLY, ""), ("names alone", 1, NAMES_ALONE, "by names alone"),
                ("all is proved", 0, ["only=3 proved=3"], "still proved"),
                ("no function is refused", 1, ["fn a::f: proved", "only=3 proved=2"], "no function is refused"),
                ("a text that cannot be read", 1, ["error[E0308]: mismatched types"], "the check ended with status 1"),
                ("a limit of the prover", 3, ["antt ran out of stack", "only=3 proved=2"], "status 3")):
            fault = trials.fault_of_edit(status, lines)
            self.check(f"an edit: {what}", bool(fault) == bool(words) and words in fault, shown=fault)
        for lines, at in ((BY_PROMISE, 0), (PARTLY, 1), (BY_SEARCH, 0)):
            self.check("by what it is refused", trials.reason_of(lines), lines[at])
        self.check("a twin that is proved", trials.fault_of_twin(0, ["only=3 proved=3"]), "")
        fault = trials.fault_of_twin(1, NAMES_ALONE)
        self.check("a twin that is not", "changes nothing, and is not proved" in fault and NAMES_ALONE[0] in fault)

    def test_a_trial_is_bounded_in_time_and_CPU_time(self) -> None:
        for words, seconds, wanted in (("exit 3", 60, 3), ("echo it; exit 0", 60, 0), ("sleep 60", 0.3, None)):
            made = trials.run(["sh", "-c", words], self.room, seconds)
            self.check(f"{words}: its status", made.status, wanted)
        self.check("what is printed is kept", trials.run(["echo", "it"], self.room, 60).lines, ["it"])
        with mock.patch.object(trials, "CPU_SECONDS", 1):
            made = trials.run(["sh", "-c", "while :; do :; done"], self.room, 60)
        self.check("CPU time is bounded", made.status is None and 0.5 < made.seconds < 3, shown=made)

    def test_an_edit_and_its_twin_fit_their_place(self) -> None:
        repository(self.root)
        self.check("names", edits.names_of(self.root), ["a/e", "b/e", "b/e same", "c/e"])
        path = edits.path_of(self.root, "b/e same")
        crate = f"{self.root}/crates/b"
        self.check("an edit", edits.edited(path, crate), {"src/lib.rt": "fn f() { two }\n"})
        self.check("its twin", edits.edited(path, crate, "same"), {"src/lib.rt": "fn f() { 1 }\n"})
        for lines, words in ((TWINNED + "old: ()\nnew: (x)\nsame: ()\n", "has the old text"),
                             ("file: src/lib.rt\nold: no\nnew: two\n", "stands 0 times")):
            write(path, lines.encode())
            self.check(f"what does not fit: {words}", words in edits.misfit(path, crate))

    def test_an_edit_is_tried_on_few_functions(self) -> None:
        repository(self.root)
        write(f"{self.root}/crates/a/src/lib.rt", b"""const MOST: u32 = 2;

/// One.
pub fn law()
    ensures first { one }
    ensures second { two }
{}

impl It {
    fn method(&self) -> u32
        ensures { result = 3 }
    {
        three
    }
}

const LEAST: u32 = 1;
""")
        write(f"{self.root}/crates/a/specs/Words.antt", b"four\n")
        for lines, wanted in (("file: src/lib.rt\nold: second { two }\nnew: 2\n", ["law"]),
                              ("file: src/lib.rt\nold:     three\nnew: 3\n", ["It::method"]),
                              ("file: src/lib.rt\nold: MOST: u32 = 2\nnew: MOST: u32 = 3\n", []),
                              ("file: src/lib.rt\nold: LEAST: u32 = 1\nnew: LEAST: u32 = 0\n", []),
                              ("file: specs/Words.antt\nold: four\nnew: 4\n", []),
                              ("at: It::law\nfile: specs/Words.antt\nold: four\nnew: 4\n", ["It::law"]),
                              ("gate: law\nfile: src/lib.rt\nold:     three\nnew: 3\n", ["law"])):
            write(f"{self.root}/tests/must_fail/a/e.edit", lines.encode())
            self.check(f"on {wanted}: {lines!r}", trials.functions_of(self.root, "a/e"), wanted)

    def test_an_edit_of_the_gate_has_a_twin_if_its_function_has_a_proof(self) -> None:
        repository(self.root)
        for crate, edit in (("a", EDIT), ("b", TWINNED), ("c", EDIT)):
            write(f"{self.root}/tests/must_fail/{crate}/e.edit", f"gate: It::f\n{edit}".encode())
            self.check(f"{crate} has no proof", [*evidence.untwinned(self.root)], [])
        for crate in "ab":
            write(f"{self.root}/crates/{crate}/proofs/lib/It/f/Answers.antt", b"")
        self.check("one has no twin", [*evidence.untwinned(self.root)],
                   ["a/e: f has a proof of its own, and the edit no line `same`"])

    def test_the_stalest_come_first(self) -> None:
        repository(self.root)
        first = head(self.root)
        table = {name: refusals.Noted(first, 10) for name in edits.names_of(self.root)}
        self.check("nothing has changed", self.stalest(table, 240), [])
        change(self.root, "crates/b/src/lib.rt", "fn f() { one } // b\n")
        self.check("a crate has changed", self.stalest(table, 240), ["b/e", "b/e same"])
        second = change(self.root, "crates/a/src/lib.rt", "fn f() { one } // a\n")
        self.check("and one below it", self.ages(table), {"a/e": 1, "b/e": 2, "b/e same": 2, "c/e": 0})
        table["b/e"] = refusals.Noted(second, 10)
        self.check("one was tried since", self.ages(table), {"a/e": 1, "b/e": 0, "b/e same": 2, "c/e": 0})
        del table["c/e"]
        self.check("one never", self.stalest(table, 240, in_order=True), ["c/e", "b/e same", "a/e"])
        self.check("within the budget", self.stalest(table, 30, in_order=True), ["c/e", "b/e same"])
        table["b/e same"] = refusals.Noted(first, 500)
        self.check("what does not fit into it blocks none", self.stalest(table, 30, in_order=True), ["c/e", "a/e"])
        change(self.root, "tests/must_fail/a/e.edit", EDIT.replace("two", "three"))
        self.check("an edit has changed", self.ages(table)["a/e"], 2)

    def ages(self, table: Dict[str, refusals.Noted]) -> Dict[str, object]:
        return {**refusals.ages(self.root, table)}

    def stalest(self, table: Dict[str, refusals.Noted], budget: float, in_order: bool = False) -> List[str]:
        found = [*refusals.stalest(self.root, table, edits.names_of(self.root), budget)]
        return found if in_order else sorted(found)

    def test_equally_stale_ones_take_turns(self) -> None:
        repository(self.root)
        seen = set()
        for turn in range(20):
            change(self.root, "page.md", str(turn))
            seen.update(self.stalest({}, refusals.USUAL))
        self.check("each is tried in some gate", sorted(seen), edits.names_of(self.root))

    def test_what_gates_learn_comes_into_the_tree(self) -> None:
        repository(self.root)
        first = head(self.root)
        note(f"{self.root}/{refusals.NOTED}", [f"a/e {first} 5", f"b/e {first} 5"])
        second = change(self.root, "crates/a/src/lib.rt", "fn f() { one } // a\n")
        before = refusals.git(self.root, "status", "--porcelain")
        refusals.note("a/e", second, 7.2)
        refusals.note("b/e", "0123456789", 7)
        refusals.note("gone/e", second, 7)
        self.check("noting changes nothing in the tree", refusals.git(self.root, "status", "--porcelain"), before)
        told = [*gate_record.keep_in_tree(self.root, os.path.join(self.room, "state", "lambda_local"))]
        self.check("it is told", told, [f"{refusals.NOTED}: 1 edits and twins are noted anew"])
        self.check("the later commit is kept, of commits and edits that are there",
                   refusals.text_of(refusals.read(f"{self.root}/{refusals.NOTED}")), f"a/e {second} 7\nb/e {first} 5\n")
        for lines, words in (([f"a/e {first}"], "is not CRATE/NAME COMMIT SECONDS"), ([f"x/e {first} 5"], "names x/e")):
            note(f"{self.root}/{refusals.NOTED}", lines)
            self.check(f"a table that {words}", words in "".join(evidence.misnoted(self.root)))
        with self.assertRaises(ValueError) as caught:
            [*gate_record.keep_in_tree(self.root, self.room)]
        self.check("a folder without records", str(caught.exception), f"no gate has left anything in {self.room}")

    def test_what_a_gate_tries_beside_its_own(self) -> None:
        gate = module_of("tests", "must_fail", "gate")
        repository(self.root)
        made = {"a/e": trials.Trial("", 5), "b/e": trials.Trial("still proved", 5), "b/e same": trials.Trial("no", 5),
                "c/e": trials.Trial("no verdict", 5, False)}
        printed = io.StringIO()
        with mock.patch.multiple(gate, ROOT=self.root, commit_to_note=lambda _: head(self.root)), \
                mock.patch.multiple(gate.counted, passed=0, failed=0), contextlib.redirect_stdout(printed), \
                mock.patch.object(gate.trials, "trial", lambda _, name, *more: made[name]):
            tried = gate.Trials(self.root, 2)
            tried.known = {"b/e": refusals.Noted(head(self.root), 5)}
            tried.some_of(made, 240, 60, 30)
            seen = [(gate.counted.passed, gate.counted.failed)]
            tried.some_of(made, 0, 60, 30)
            seen.append((gate.counted.passed, gate.counted.failed))
        self.check("what is refused passes, what was refused once and is not any more fails", seen[0], (1, 1))
        self.check("without a budget none is tried", seen[1], seen[0])
        told = printed.getvalue()
        for words in ("FAIL b/e: ", "note b/e same, never tried before, is not proved", "note c/e was left to the"):
            self.check(f"it says {words!r}", words in told, shown=told)
        self.check("what passed is noted", [*refusals.known(self.root)], ["a/e"])

    def test_another_programs_table_is_passed_over(self) -> None:
        repository(self.root)
        write(refusals.of_machine(), b"rubbish\n")
        self.check("nothing is known", refusals.known(self.root), {})
        refusals.note("a/e", head(self.root), 1)
        self.check("and it is written anew", [*refusals.known(self.root)], ["a/e"])


if __name__ == "__main__":
    unittest.main()
