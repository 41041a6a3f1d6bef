"""Checks how must-fail edits are put together for one check of the prover, and how what it prints is told apart: in
small repositories, and with a function in place of the prover."""
import os
import tempfile
import time
import unittest
from typing import Dict, List, Sequence, Tuple
from unittest import mock

from tests.library import batches, edits, trials
from tests.library.cases import Case
from tests.library.trees import write

SOURCES = {"a": "impl A {\n    fn f(&self) { one }\n\n    fn g(&self) {\n        two\n    }\n}\n",
           "b": "fn h() {\n    three\n}\n", "c": "fn k() {\n    h(); four\n}\n", "lib": "fn l() {\n    five\n}\n"}
EDITS = {"in_a": "file: src/a.rt\nold: two\nnew: 2\nsame: ii\n",
         "in_b": "file: src/b.rt\nold: three\nnew: 3\nsame: iii\n",
         "in_c": "file: src/c.rt\nold: four\nnew: 4\n",
         "in_lib": "file: src/lib.rt\nold: five\nnew: 5\n", "again_in_a": "file: src/a.rt\nold: two\nnew: 22\n",
         "elsewhere": "gate: a::A::f\nfile: src/b.rt\nold: three\nnew: 33\n"}
ONE_REFUSED = ["fn x::a::A::g: no proof: expected answers in ./proofs/a/A/g/Answers.antt; `search` did not prove `r`",
               "fn x::b::h: proved", "only=2 proved=1"]
BOTH_REFUSED = [ONE_REFUSED[0], "note: src/b.rt:2:5: it is not proved that what the function ensures holds",
                "fn x::b::h: not proved", "only=2 proved=0"]
BY_NAMES = [ONE_REFUSED[0], "./proofs/b/h/Answers.antt:7:2: error: `returns`: `c` has no field `three`",
            "fn x::b::h: not proved", "only=2 proved=0"]
ELSEWHERE = [*BOTH_REFUSED[:3], "./proofs/Words.antt:7:2: error: `word` is not in scope", "only=2 proved=0"]


class Batches(Case):
    def setUp(self) -> None:
        room = tempfile.TemporaryDirectory()
        self.addCleanup(room.cleanup)
        self.root = room.name
        for name, text in SOURCES.items():
            write(f"{self.root}/crates/x/src/{name}.rt", text.encode())
        for name, text in EDITS.items():
            write(f"{self.root}/tests/must_fail/x/{name}.edit", text.encode())

    def test_edits_of_different_files_are_tried_together(self) -> None:
        self.check("groups", batches.grouped(self.root, ["x/in_a", "x/in_b"]), [["x/in_a", "x/in_b"]])
        for others, why in ((["x/in_a", "x/again_in_a"], "two of one file"),
                            (["x/in_a", "x/in_lib"], "the crate's root"),
                            (["x/in_b", "x/in_c"], "one whose function calls that of the other"),
                            (["x/in_a", "x/elsewhere"], "one that the gate tries on another function"),
                            (["x/in_a", "x/in_b same"], "an edit and a twin")):
            self.check(f"alone is {why}", batches.grouped(self.root, others), [[it] for it in others])
        twins = ["x/in_a same", "x/in_b same"]
        self.check("twins", batches.grouped(self.root, twins), [twins])

    def test_a_group_is_full_at_some_size(self) -> None:
        names = []
        for number in range(2 * batches.MOST + 1):
            write(f"{self.root}/crates/x/src/n{number}.rt", f"fn n{number}() {{\n    old\n}}\n".encode())
            edit = f"file: src/n{number}.rt\nold: old\nnew: n\n"
            write(f"{self.root}/tests/must_fail/x/n{number}.edit", edit.encode())
            names.append(f"x/n{number}")
        self.check("sizes", [len(it) for it in batches.grouped(self.root, names)], [batches.MOST, batches.MOST, 1])

    def tried(self, names: Sequence[str], *answers: List[str]) -> Dict[str, str]:
        """The fault of each trial; for each check in turn the prover's answer."""
        given = iter(answers)
        self.checked: List[Tuple[List[str], List[str]]] = []
        self.checked_anew: List[bool] = []

        def check(root: str, crate: str, functions: Sequence[str], texts: Dict[str, str], built: str, seconds: float,
                  anew: bool = False) -> trials.Check:
            self.checked.append(([*functions], sorted(texts)))
            self.checked_anew.append(anew)
            lines = next(given)
            return trials.Check(0 if "=" not in lines[-1] else 1, lines, 10)
        with mock.patch.object(trials, "check", check):
            made = dict(batches.tried(self.root, [*names], os.devnull, 60))
        self.seconds = sum(it.seconds for it in made.values())
        self.by = {name: it.by for name, it in made.items()}
        return {name: it.fault for name, it in made.items()}

    def test_each_is_judged_by_its_own_file(self) -> None:
        both = ["x/in_a", "x/in_b"]
        self.check("both are refused", self.tried(both, BOTH_REFUSED), {it: "" for it in both})
        self.check("by one check of their functions", self.checked, [(["A::g", "h"], ["src/a.rt", "src/b.rt"])])
        self.check("whose time they share", self.seconds, 10.0)
        self.check("each by what is told of its own", self.by, dict(zip(both, BOTH_REFUSED)))

    def test_what_is_not_refused_is_tried_alone(self) -> None:
        proved = ["fn x::b::h: proved", "all proved"]
        seen = self.tried(["x/in_a", "x/in_b"], ONE_REFUSED, proved, proved)
        self.check("its fault is that of its own check", seen, {"x/in_a": "", "x/in_b": "still proved"})
        self.check("which is made once more, anew", self.checked_anew, [False, False, True])
        self.check("functions", [it[0] for it in self.checked], [["A::g", "h"], ["h"], ["h"]])
        self.check("no time is lost", self.seconds, 30.0)
        seen = self.tried(["x/in_a", "x/in_b"], ONE_REFUSED, proved, ["fn x::b::h: not proved", "only=1 proved=0"])
        self.check("and may find what the first did not", [it for it in seen if seen[it]], [])
        seen = self.tried(["x/in_a", "x/in_b"], BY_NAMES, [*BY_NAMES[1:3], "only=1 proved=0"])
        self.check("refused by names alone", [it for it in seen if "names alone" in seen[it]], ["x/in_b"])

    def test_what_tells_of_none_is_tried_in_halves(self) -> None:
        alone = [[ONE_REFUSED[0], "only=1 proved=0"], ["fn x::b::h: not proved", "only=1 proved=0"]]
        for what, first in (("a fault of a file that is none of theirs", ELSEWHERE),
                            ("a text that cannot be read", ["error[E0308]: mismatched types", "stopped=1"])):
            self.check(what, self.tried(["x/in_a", "x/in_b"], first, *alone), {"x/in_a": "", "x/in_b": ""})
            self.check(f"{what}: checks", len(self.checked), 3)

    def test_what_is_open_when_its_time_is_over_has_no_verdict(self) -> None:
        """So the halves of a group that needs too long do not begin."""
        made = [*batches.tried(self.root, ["x/in_a", "x/in_b"], os.devnull, 60, time.monotonic() - 1)]
        self.check("of each it is told", [(name, one.is_decided) for name, one in made],
                   [("x/in_a", False), ("x/in_b", False)])

    def test_an_edit_that_does_not_fit_is_told_alone(self) -> None:
        write(f"{self.root}/crates/x/src/b.rt", b"fn h() {\n    three three\n}\n")
        seen = self.tried(["x/in_a", "x/in_b"], [ONE_REFUSED[0], "only=1 proved=0"])
        self.check("faults", {name: fault[:15] for name, fault in seen.items()},
                   {"x/in_a": "", "x/in_b": "it does not fit"})

    def test_twins_are_proved_together(self) -> None:
        both = ["x/in_a same", "x/in_b same"]
        self.check("both", self.tried(both, ["all proved"]), {it: "" for it in both})
        alone = [ONE_REFUSED[0], "only=1 proved=0"]
        seen = self.tried(both, ONE_REFUSED, alone, alone, ["all proved"])
        self.check("one that is not", [it for it in seen if seen[it]], ["x/in_a same"])

    def test_the_texts_of_functions(self) -> None:
        self.check("of a method", edits.bodies_of(edits.path_of(self.root, "x/in_a"), f"{self.root}/crates/x"),
                   {"A::g": "    fn g(&self) {\n        two"})


if __name__ == "__main__":
    unittest.main()
