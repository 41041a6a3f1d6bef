"""The calls of a sequence, by labels in place of identifiers, as a line of text and as a line of a script.

  next
  invoke a ={"n":1}          a label for the invocation, and its payload; with a trace: `invoke a trace=TRACE =..`;
                             with the qualifier $LATEST: `invoke a q =..`
  response a ="done"         also `failure a =REPORT`, `response-too-large a`; the label ? is an identifier that was
  never given init-failure =REPORT
  register x =NAME is -      a label for the extension, its name, its events (i, s, is or -), `a` if it asks for the
  account ext-next x                 also `ext-init-failure x =REPORT`, `ext-exit-failure x =REPORT`
  wait                       until the function's timeout has passed
  leave                      the connection of the Next that waits ends
  hang-up a                  the caller of an invocation ends its connection

  @2 next                    at the second environment, if the function has two

Texts are percent-decoded, as in a script (docs/formats.md)."""
from typing import Dict, NamedTuple, Optional, Tuple

from lambda_local.history.script import decoded
Ids = Dict[Tuple[bool, str], str]  # of labels: of an invocation (False, label), of an extension (True, label)
Counts = Dict[Tuple[bool, str], int]

NEVER_GIVEN = "?"
UNKNOWN_COUNT = 2 ** 48 - 1
OF_INVOCATIONS = ("response", "failure", "response-too-large")
OF_EXTENSIONS = ("ext-next", "ext-init-failure", "ext-exit-failure")
MADE_BY_NONE = ("wait", "leave", "hang-up")  # no request is sent
LABELLED = ("invoke", "register", "hang-up", *OF_INVOCATIONS, *OF_EXTENSIONS)
POLLS = ("next", "ext-next")


class Call(NamedTuple):
    kind: str  # the script's word, or one of `MADE_BY_NONE`
    label: str = ""  # of the invocation or the extension that it is about
    fields: Tuple[str, ...] = ()  # the other words
    environment: int = 1

    def __str__(self) -> str:
        at = f"@{self.environment}" if self.environment > 1 else ""
        return " ".join(word for word in (at, self.kind, self.label, *self.fields) if word)

    @property
    def body(self) -> bytes:
        """The payload, the output or the report; of a registration the name."""
        text = next((field for field in self.fields if field.startswith("=")), "=")
        return decoded(text)

    @property
    def trace(self) -> Optional[str]:
        word = next((field for field in self.fields if field.startswith("trace=")), "")
        return decoded(word[len("trace"):]).decode() if word else None

    @property
    def qualified(self) -> bool:
        return self.kind == "invoke" and "q" in self.fields

    def script(self, environment: int, function: str, counts: Counts, ticket: Optional[int] = None) -> str:
        """Returns its line in a script, without the moment. `counts` has the count of each label; `ticket` is that of
        the Next that a `leave` is about."""
        texts = " ".join(field for field in self.fields
                         if not field.startswith("trace=") and not (self.qualified and field == "q"))
        if self.kind == "register" and len(self.fields) == 2:
            texts += " -"
        if self.kind == "invoke":
            trace = next((field[len("trace"):] for field in self.fields if field.startswith("trace=")), "-")
            return f"invoke {function} {'q' if self.qualified else '-'} {trace} {texts}"
        if self.kind == "leave" and ticket is not None:
            return f"withdraw {ticket}"
        if self.kind in MADE_BY_NONE:
            return "tick"
        count = counts.get((self.kind in OF_EXTENSIONS, self.label), UNKNOWN_COUNT)
        named = [str(count)] if self.kind in OF_INVOCATIONS + OF_EXTENSIONS else []
        return " ".join([self.kind, str(environment), *named, *([texts] if texts else [])])


def calls_of(text: str) -> Tuple[Call, ...]:
    """The calls of a text, one a line."""
    calls = []
    for line in filter(None, map(str.strip, text.splitlines())):
        kind, *words = line.split(" ")
        environment = 1
        if kind.startswith("@"):
            environment, (kind, *words) = int(kind[1:]), words
        label = words.pop(0) if kind in LABELLED else ""
        calls.append(Call(kind, label, tuple(words), environment))
    return tuple(calls)


def about_extension(call: Call) -> bool:
    return call.kind == "register" or call.kind in OF_EXTENSIONS
