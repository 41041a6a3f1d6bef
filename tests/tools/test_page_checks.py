"""Checks what tests/pages asks of the sources and of linters: in small trees, and with commands in place of linters."""
import contextlib
import gzip
import hashlib
import os
import tempfile
import unittest
from typing import Iterator, List
from unittest import mock

from tests.library import changes, evidence, lies_table, lint, source_facts, speeds
from tests.library.cases import Case
from tests.library.trees import commit, write

SOURCE = """impl<B: Bell> Rings<B> {
    /// Rings.
    pub fn ring(self) {
    }

    fn first(&self) -> u32
        requires { 0 < self.now }
        ensures { result ≡ 1 }
    {
        1
    }

    fn rest(&mut self)
        ensures { self.new ≡ self.old }
        ensures kept { Keeps cx.old cx.new }
    {
    }

    fn last(&mut self)
        ensures same { self.new.first ≡ self.old.first }
        ensures grown { self.new.count ≡ self.old.count + 1 }
    {
    }
}

impl Bell for Loud {
    fn ring(self) {}
}

pub fn open<A: Copy>(
    alloc: A,
) -> Result<u32, AllocError>
where
    A: Copy,
{
    Ok(1)
}

fn hidden() {}
"""
LIST = "# Proofs\n`hidden`\n## What is not claimed\n- **Bells**: `Rings::ring`\n- **Others**: {}\n## More\n`hidden`\n"
PROOF = """pub used : (n : ℕ) → n ≡ n
used n = refl

pub unused : (n : ℕ) → n ≡ n
unused n = refl
  where
    inner : ℕ
    inner = 1

pub caller : ℕ
caller = used inner
"""


class PageChecks(Case):
    def setUp(self) -> None:
        room = tempfile.TemporaryDirectory()
        self.addCleanup(room.cleanup)
        self.root = room.name
        self.put("crates.txt", "a:\nhttp_routes:\nhttp_front:\n")
        self.put("crates/a/src/rings.rt", SOURCE)

    def put(self, path: str, text: str) -> None:
        write(os.path.join(self.root, path), text.encode())

    def test_functions_are_listed_with_their_promises(self) -> None:
        self.check("each with its type, whether it promises, and whose contract it has",
                   [(it.path, it.is_public, it.ensures, it.is_of_trait) for it in source_facts.functions(self.root)],
                   [("Rings::ring", True, False, False), ("Rings::first", False, True, False),
                    ("Rings::rest", False, False, False), ("Rings::last", False, True, False),
                    ("ring", False, False, True), ("open", True, False, False), ("hidden", False, False, False)])

    def test_functions_that_promise_nothing(self) -> None:
        def faults(words: str) -> str:
            return "\n".join(source_facts.unlisted(self.root, LIST.format(words)))
        found = faults("nothing")
        self.check("those that are nowhere", [name for name in ("ring", "first", "rest", "last", "open", "hidden")
                                              if f"::{name} promises nothing" in found], ["rest", "open", "hidden"])
        self.put(source_facts.NO_CLAUSE, "# a comment\na::hidden: it prints\n")
        self.check("one in the list, one with a reason", faults("`open`, `Rings::rest`"), "")
        self.check("one in both", "a::hidden is in the list, and in" in faults("`open`, `hidden`"))
        self.put(source_facts.NO_CLAUSE, "a::hidden: it prints\na::Rings::first: it prints\na::open: \n")
        found = faults("nothing")
        self.check("one that has a clause", "a::Rings::first is not there, or has a clause" in found, shown=found)
        self.check("one without a reason", "a::open has no reason" in found, shown=found)

    def test_paths_of_routes(self) -> None:
        self.put(source_facts.ROUTES, 'add(router, "/_local/stop");\n')
        self.put("crates/a/src/lib.rt", '//! `"/_local/stop"`\n    ensures stop { codes "/_local/stop" }\n')
        self.check("comments and clauses may have one", [*source_facts.routes(self.root)], [])
        self.put("crates/http_front/src/front.rt", 'const STOP: &str = "/_local/stop";\n')
        self.check("code may not", "front.rt has a route's path" in "".join(source_facts.routes(self.root)))

    def test_dead_lemmas(self) -> None:
        self.put("crates/a/proofs/It.antt", PROOF)
        self.put("crates/a/proofs/f/Answers.antt", "pub returns : goal.returns\nreturns c = caller\n")
        told = ("crates/a/proofs/It.antt::unused: nothing uses this lemma: take it out, or name it in "
                "tests/library/dead_lemmas.noted with the reason")
        self.check("what only its own lines name", [*source_facts.dead_lemmas(self.root)], [told])
        self.put(source_facts.DEAD, "crates/a/proofs/It.antt::unused:\n")
        self.check("an exception needs a reason", [*source_facts.dead_lemmas(self.root)], [told])
        self.put(source_facts.DEAD, "crates/a/proofs/It.antt::unused crates/a/proofs/It.antt::used: it is shown\n")
        self.check("an exception", [*source_facts.dead_lemmas(self.root)], [])
        self.check("one that is none", [*source_facts.lemmas_that_are_gone(self.root)], [
            "tests/library/dead_lemmas.noted: crates/a/proofs/It.antt::used is used, or not there: take its line out"])
        self.put("tables/a/src/it.rs", "ghost use a::It::{unused};\n")
        self.check("a table uses it", [*source_facts.unused_lemmas(self.root)], [])

    def test_search_words(self) -> None:
        """Each row of the table of changes names the files that its word finds."""
        self.put("a/one.py", "the_word\n")
        self.put("a/two.py", "other\n")
        self.put("b/three.py", "The_Word\n")
        commit(self.root)

        def faults(row: str) -> List[str]:
            return [*changes.faults(self.root, f"## To change something\n| To change | Touch | Word |\n{row}\n")]
        self.check("as it is", faults("| x | `a/one.py`, `b/three.py` | `the_word` in `a`, `b` |"), [])
        self.check("a folder", faults("| x | `a/one.py`, `b/more`, `c/d.py` | `the_word` in `a` |"), [])
        self.check("not named", faults("| x | `a/one.py` | `the_word` in `a`, `b` |"),
                   ["x: b/three.py has the_word, and the row does not name it"])
        self.check("named, and without the word", faults("| x | `a/one.py`, `a/two.py` | `the_word` in `a` |"),
                   ["x: a/two.py has no the_word"])
        self.check("no word", faults("| x | `a/one.py` |"), ["x has no search word with its folders"])
        self.check("no table", [*changes.faults(self.root, "# Tools\n")], ["has no rows of ## To change something"])

    def test_a_gate_of_another_program(self) -> None:
        packed, sum_is = gzip.compress(b"it"), hashlib.sha256(b"it").hexdigest()
        write(os.path.join(self.root, "release", "lambda_local.gz"), packed)
        self.put("release/PROVED", f"sources 1\nkit k\nprogram {sum_is}\ngate 9 passed, 0 failed\n")
        for sources, built, words in (("1", sum_is, ""), ("2", "0" * 64, ""), ("1", "0" * 64, "of another program")):
            self.put(".ci/LAST_FROM_SCRATCH", f"commit 1\nsources {sources}\nprogram {built}\n")
            found = "".join(evidence.broken_release(self.root))
            self.check(f"a gate of sources {sources}: {words or 'all is well'}",
                       bool(found) == bool(words) and words in found, shown=found)

    def test_a_count_of_instructions(self) -> None:
        page = "".join(f"# Speed\n\n## {part}\n| **all** | {figure} | 9 |\n" for part, figure in
                       (("A replay", "7"), ("Instructions", "60,000"), ("Scale", "8")))
        self.check("the page's", speeds.of_page(page), 60000)
        for counted, words in ((60000, ""), (57001, ""), (62999, ""), (63001, "1.05 of the 60,000"), (50000, "0.83")):
            found = speeds.fault(60000, counted)
            self.check(f"{counted} beside 60,000", bool(found) == bool(words) and words in found, shown=found)
        self.check("none on the page", "tells no instructions" in speeds.fault(speeds.of_page("# Speed\n"), 60000))
        script = 'while [ "$1" != --json ]; do shift; done; {} >"$2"'
        for made, wanted in (('echo \'[{"instructions": 7}]\'', 7), ("echo", None), ("exit 3", None)):
            write(f"{self.root}/bench/serve/instructions", f"#!/bin/sh\n{script.format(made)}\n".encode(), 0o755)
            with mock.patch.object(speeds, "NEEDS", ()):
                count, why = speeds.count(self.root, "/nowhere")
            self.check(f"a count by {made}", (count, bool(why)), (wanted, wanted is None))

    @contextlib.contextmanager
    def linter(self, name: str, script: str) -> Iterator[None]:
        """Puts a command in place of a linter."""
        write(os.path.join(self.root, "bin", name), f"#!/bin/sh\n{script}\n".encode(), 0o755)
        with mock.patch.dict(os.environ, {"PATH": f"{self.root}/bin:/usr/bin:/bin"}):
            yield

    def test_lies_that_are_not_found_since_something_changed(self) -> None:
        """By the lie, its tests and the file with the fault, whatever the commit."""
        lies = {name: ("", f"tools/{name}.py", "old", "new") for name in "ab"}
        for name in "abc":
            self.put(f"tests/tools/test_{name}.py", "tests")
            self.put(f"tools/{name}.py", "old")
        no_lie = "tests.tools.test_c has no lie in tests/library/lies_table.py"
        with mock.patch.dict(lies_table.LIES, lies, clear=True):
            self.check("none was found yet", list(lies_table.untried(self.root)), [
                *(f"the lie of tests.tools.test_{name} was not found yet: tests/lies {name}" for name in "ab"), no_lie])
            self.put(lies_table.NOTED, "".join(f"{name} {lies_table.sum_of(self.root, name)}\n" for name in lies))
            self.check("each was found by what is there", list(lies_table.untried(self.root)), [no_lie])

            def seen() -> str:
                return next(lies_table.untried(self.root), "").partition(": tests/lies ")[2]
            os.remove(os.path.join(self.root, "tests/tools/test_c.py"))
            for path, name in (("tests/tools/test_a.py", "a"), ("tools/b.py", "b")):
                with open(os.path.join(self.root, path), encoding="utf-8") as file:
                    before = file.read()
                self.put(path, before + " and more")
                self.check(f"{path} has changed", seen(), name)
                self.put(path, before)
                self.check("as it was", seen(), "")
            lies_table.LIES["b"] = ("", "tools/b.py", "old", "newer")
            self.check("another lie", seen(), "b")

    def test_linters_that_do_not_judge(self) -> None:
        for version, wanted in (("pyflakes3 2.4.0 Python 3.9", True), ("2.5.0 Python 3.11.2", False), ("3.2", False),
                                ("what?", True)):
            with self.linter("pyflakes3", f"echo '{version}'"):
                self.check(f"{version}: it is older", lint.is_older("pyflakes3", "2.5"), wanted)
        says = ('a.py:1: error: Library stubs not installed for "yaml"  [import-untyped]', "a.py:2: error: Missing",
                'b.py:3: error: Cannot find implementation or library stub for module named "pytest"', "b.py: note: it",
                "c.py:4: error: Incompatible types")
        printed = "\n".join(f"echo '{it}'" for it in says)
        with self.linter("mypy", f"{printed}\nexit 1"), mock.patch.object(lint, "without_stubs", set()):
            found = [*lint.types_found(self.root, "mypy", self.root, [], ["a.py"])]
            self.check("what imports a library without types is not judged", found, [("mypy", [says[4]])])
            self.check("and is told", sorted(lint.without_stubs), ["pytest", "yaml"])


if __name__ == "__main__":
    unittest.main()
