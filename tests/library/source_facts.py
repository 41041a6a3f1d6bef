"""What the sources of the crates say: their functions and whether each promises something, the paths of routes, lemmas
that nothing uses, and public calls that no page names."""
import glob
import os
import re
from typing import Dict, Iterator, List, NamedTuple, Set, Tuple

from crate_list import below, uses
from tests.library.page_facts import code_of, text_of

FUNCTION = re.compile(r"^( *)(pub(?:\([a-z ]+\))? )?(?:const )?fn (\w+)", re.M)
BLOCK = re.compile(r"^(?:impl|(?:pub(?:\([a-z]+\))? )?trait)\b([^{;]*)", re.M)
GENERIC = re.compile(r"<(?:[^<>]|->)*>")
CLAUSE = re.compile(r"^\s*(ensures|requires|ghost|×)")
ENSURES = re.compile(r"\s*ensures\b")
# A clause that says only that something stays as it was, which one that does nothing meets.
STAYS = re.compile(r"\s*ensures (?:\w+ )?\{ (?:(\w+)\.new(\S*) ≡ \1\.old\2|Keeps cx\.old cx\.new) \}$")
ROUTE = re.compile(r"^(?!\s*(?://|ensures|requires|ghost)).*\"/_local/", re.M)
ROUTES = "crates/http_routes/src/routes.rt"
OF_HANDLERS = "crates/handler_desk/src/asked.rt"  # the paths of handlers' own requests, which no route has
VIEWS = "crates/long_poll/src/exchange/views.rt"
SAID_VERSION = re.compile(r'^pub const VERSION: &str = "([^"]*)";$', re.M)
NO_CLAUSE = os.path.join("tests", "library", "no_clause.noted")
DEAD = os.path.join("tests", "library", "dead_lemmas.noted")
NOT_CLAIMED = "## What is not claimed"


class Function(NamedTuple):
    """A function of a crate by its path: `Type::name`, or its name; whether it is public, has a contract of its own
    that says more than what stays as it was, and is of a trait, whose contract it then has."""
    crate: str
    path: str
    is_public: bool
    ensures: bool
    is_of_trait: bool


def sources(root: str, *crates: str) -> Iterator[Tuple[str, str, str]]:
    """The crate, the path and the text of each source."""
    for crate in crates or uses(root):
        for path in sorted(glob.glob(f"{root}/crates/{crate}/src/**/*.rt", recursive=True)):
            yield crate, os.path.relpath(path, root), text_of(path)


def contract(text: str, start: int) -> Iterator[str]:
    """The lines of a function up to its body."""
    for line in text[start:].split("\n"):
        yield line
        word = line.strip()
        is_clause = CLAUSE.match(line) or word.startswith("//")
        if word.endswith(";") or not is_clause and (word == "{" or word.endswith(("{", "{}")) or ") {" in word):
            return


def type_of(head: str) -> str:
    """The type of a block, or its trait's name; nothing if it is a trait's for a type."""
    while GENERIC.search(head):
        head = GENERIC.sub("", head)
    words = re.match(r"\s*(\w+)(?: for )?", head)
    return "" if " for " in head or not words else words[1]


def functions(root: str, *crates: str) -> Iterator[Function]:
    for crate, _, text in sources(root, *crates):
        blocks = [*BLOCK.finditer(text)]
        for it in FUNCTION.finditer(text):
            above = [block for block in blocks if block.start() < it.start()] if it[1] else []
            name = type_of(above[-1][1].split("where")[0]) if above else ""
            ensures = any(ENSURES.match(line) and not STAYS.match(line) for line in contract(text, it.start()))
            yield Function(crate, f"{name}::{it[3]}" if name else it[3], it[2] == "pub ", ensures,
                           bool(above) and not name)


def routes(root: str) -> Iterator[str]:
    """Places beside the table of routes that have the path of one."""
    for _, path, text in sources(root):
        if path not in (ROUTES, OF_HANDLERS) and ROUTE.search(text):
            yield f"{path} has a route's path, which stands in {ROUTES} alone"


def version(root: str) -> Iterator[str]:
    """How the version that the service answers with differs from the file VERSION."""
    said = SAID_VERSION.findall(text_of(root, VIEWS))
    own = text_of(root, "VERSION").strip()
    if said != [own]:
        yield f"{VIEWS} says {', '.join(said) or 'no version'}, and the file VERSION {own}"


def reasons(root: str, noted: str = NO_CLAUSE) -> Dict[str, str]:
    """What a file excepts, such as functions that need no clause, by `crate::path`, each with its reason, from lines
    `NAME NAME ..: REASON`."""
    found: Dict[str, str] = {}
    for line in text_of(root, noted).splitlines():
        names, _, reason = line.partition(": ")
        if line[:1] not in ("", "#"):
            found.update(dict.fromkeys(names.split(), reason.strip()))
    return found


def is_in(it: Function, part: Set[str]) -> bool:
    """Whether words of code in one part of the list name a function: its path, its type, or, beside a word that has its
    type, its name."""
    *types, name = it.path.split("::")
    has_type = not types or any(word.split("::")[0] == types[0] for word in part)
    return bool({it.path, f"{it.crate}::{it.path}", *types} & part) or has_type and name in part


def unlisted(root: str, page: str) -> Iterator[str]:
    """Functions that promise nothing, and that neither the list of what is not claimed names, by themselves or by their
    type, nor the file of those that need no clause."""
    listed = page.split(NOT_CLAIMED)[-1].split("\n## ")[0]
    parts = [{word for span in code_of(part)[1] for word in re.findall(r"\w+(?:::\w+)*", span)}
             for part in listed.split("\n- ")]
    why, bare = reasons(root), [it for it in functions(root) if not it.ensures and not it.is_of_trait]
    for it in bare:
        name = f"{it.crate}::{it.path}"
        is_listed = any(is_in(it, part) for part in parts)
        if not is_listed and name not in why:
            yield f"{name} promises nothing: name it in the list, or in {NO_CLAUSE} with the reason"
        elif is_listed and name in why:
            yield f"{name} is in the list, and in {NO_CLAUSE}"
    there = {f"{it.crate}::{it.path}" for it in bare}
    for name, reason in why.items():
        if name not in there:
            yield f"{NO_CLAUSE}: {name} is not there, or has a clause"
        elif not reason:
            yield f"{NO_CLAUSE}: {name} has no reason"


# A word of a proof; and a lemma's signature, at the top of a file or below a `where`.
WORD = re.compile(r"[^\s(){}.,;:\[\]]+")
LEMMA = re.compile(r"^ *(?:(?:pub|abbrev|unfoldable) )*([^\s(){}.,;:\[\]]+) : ")
# Files whose names the prover asks for, and examples that are there to be read.
ASKED_FOR = {"Answers.antt", "Invariants.antt", "Proof.antt", "Witness.antt", "Lib.antt"}


def unused_lemmas(root: str) -> Iterator[Tuple[str, str]]:
    """Lemmas of the proofs that nothing names but their own lines, each with its file."""
    paths = [path for kind in ("proofs/**/*.antt", "specs/**/*.antt", "src/**/*.rt")
             for path in glob.glob(f"{root}/crates/*/{kind}", recursive=True)]
    paths += [path for kind in ("t*/**/*.edit", "[bt]*/**/*.proof", "[bt]*/**/*.rs")
              for path in glob.glob(f"{root}/{kind}", recursive=True)]
    lemmas: Dict[str, str] = {}
    used: Set[str] = set()
    for path in sorted(paths):
        own = ""
        is_proof = re.search(r"/crates/\w+/proofs/", path) and os.path.basename(path) not in ASKED_FOR
        for line in text_of(path).split("\n"):
            words = WORD.findall(line)
            signature = LEMMA.match(line) if is_proof else None
            if signature:
                own = signature[1]
                lemmas.setdefault(own, os.path.relpath(path, root))
            # (a lemma's own clauses, and its calls of itself, are no use of it)
            used.update(word for word in words if word != own)
    yield from ((path, name) for name, path in sorted(lemmas.items()) if name not in used)


def dead_lemmas(root: str) -> Iterator[str]:
    """Lemmas that nothing uses, unless the file of those that may stay names them with a reason. Theorems on public
    calls are `Answers.antt`, which the prover asks for, and so are no lemmas here."""
    why = reasons(root, DEAD)
    for it in sorted(f"{path}::{name}" for path, name in unused_lemmas(root)):
        if not why.get(it):
            yield f"{it}: nothing uses this lemma: take it out, or name it in {DEAD} with the reason"


def lemmas_that_are_gone(root: str) -> Iterator[str]:
    """Names in that file of lemmas that are used again, or not there any more."""
    dead = {f"{path}::{name}" for path, name in unused_lemmas(root)}
    for it in reasons(root, DEAD):
        if it not in dead:
            yield f"{DEAD}: {it} is used, or not there: take its line out"


def public_calls(root: str, crate: str) -> List[str]:
    """The functions that a crate offers, by their paths."""
    door = text_of(root, "crates", crate, "src", "lib.rt")
    offered = set(re.findall(r"\w+", " ".join(re.findall(r"^pub use ([^;]*);", door, re.M))))
    return [it.path for it in functions(root, crate) if it.is_public and it.path.split("::")[0] in offered]


def unnamed_calls(root: str, page: str) -> Iterator[str]:
    """Public calls of the crates below `long_poll` that neither this page names nor docs/proofs.md."""
    spans = [*code_of(page)[1], *code_of(text_of(root, "docs", "proofs.md"))[1]]
    named = set(re.findall(r"\w+", " ".join(spans)))
    forms = [re.escape(it).replace("…", r"\w+") for span in spans for it in re.findall(r"…_\w+|\w+_…", span)]
    are_named = re.compile("|".join(forms) or "$.")
    for crate in below("long_poll", uses(root)):
        for path in public_calls(root, crate):
            name = path.split("::")[-1]
            if name not in named and not are_named.fullmatch(name):
                yield f"{crate}::{path} is not named, nor in docs/proofs.md"
