"""The sequences that are played: worked ones, and random ones, each with an ending that leaves a known state."""
import functools
from typing import Iterable, List, Tuple

from lambda_local.history.entries import count_in
from lambda_local.history.words import Word

from .calls import NEVER_GIVEN, Call, calls_of
from .oracle import FRESH, WARM, Oracle, Plan, Sequence, playable, taken_registrations

REPORT = '={"errorMessage":"no%20cheese","errorType":"OutOfCheese"}'
LIMIT = 6_291_456  # bytes of a response
LONG = {"LONG_EVENT": '{"text":"' + "x" * 70_000 + '"}', "LONG_OUTPUT": '"' + "y" * 90_000 + '"',
        "GREATEST": '"' + "x" * (LIMIT - 2) + '"'}
PARTS = {FRESH: """
one invocation
  register x =probe -
  ext-next x
  next
  invoke a ={"n":1}
  response a ={"n":2}
a qualified invocation
  register x =probe i
  ext-next x
  next
  invoke a q ={"n":1}
  ext-next x
  response a =2
an error
  register x =probe -
  ext-next x
  next
  invoke a ={"n":1}
  failure a REPORT
  next
bodies as they are written
  register x =probe -
  ext-next x
  next
  invoke a ={%20"b":%201.50,%0A"a":%20[1e3,%20"\\u00e9"]%20}
  response a =[%202.0%20,{"z":1,"a":null}%20]
  next
  invoke b =1
  failure b ={"errorType":"A.Type","errorMessage":"two%20%20spaces","stackTrace":[],"cause":{"errorMessage":"why"}}
  next
an invocation that waits for the runtime
  register x =probe i
  ext-next x
  invoke a trace=Root=1-65a1b2c3-0123456789abcdef01234567;Sampled=1 ={"text":"M%C3%BCller"}
  next
  response a ="M%C3%BCller"
an extension that has not asked
  register x =probe i
  next
  invoke a =1
  ext-next x
  response a =2
  next
  invoke b =3
  ext-next x
two invocations at once
  invoke a =1
  invoke b =2
a failed Init
  register x =probe i
  next
  init-failure REPORT
  ext-next x
an invocation that waits for a failed Init
  invoke a =1
  init-failure REPORT
calls in the wrong phase
  register x =probe -
  ext-next x
  next
  register y =late i
  init-failure REPORT
  invoke a =1
  next
  init-failure REPORT
  register z =later s
  response a =2
  response a =3
  failure a REPORT
a newer poll
  register x =probe i
  ext-next x
  ext-next x
  next
  next
  invoke a =1
an earlier identifier
  register x =probe -
  ext-next x
  next
  invoke a =1
  response a =2
  next
  invoke b =3
  response a =4
  response ? =5
  response b =6
who is told the end
  register w =both is
  register x =invoke i
  register y =shutdown s
  register z =none -
  ext-next w
  ext-next x
  ext-next y
  ext-next z
  next
  invoke a =1
  ext-exit-failure z REPORT
  response a =2
  ext-next x
  ext-next w
  ext-next y
a Next of an Init whose connection ends
  register x =probe -
  next
  leave
  ext-next x
  invoke a =1
  next
  response a =2
  next
an extension that registers after a Next whose connection ends
  register x =probe -
  ext-next x
  next
  leave
  register y =late -
an extension that fails as it starts
  register x =probe s
  register y =other is
  invoke a =1
  ext-init-failure x REPORT
  ext-next y
  ext-next y
  ext-next x
an extension that ends while all wait
  register x =probe -
  ext-next x
  next
  ext-exit-failure x REPORT
a second report of an extension
  register x =probe s
  register y =other is
  ext-next y
  ext-exit-failure x REPORT
  ext-exit-failure x REPORT
a second extension that fails as it starts
  register x =probe s
  register y =other s
  ext-init-failure x REPORT
  ext-init-failure y REPORT
an invocation during the end
  register x =probe s
  ext-next x
  next
  register y =late i
  ext-exit-failure x REPORT
  invoke a =1
names of extensions
  register x =probe i
  register y =probe s
  ext-next ?
  register z =account i a
ten extensions
  register a =e1 -
  register b =e2 -
  register c =e3 -
  register d =e4 -
  register e =e5 -
  register f =e6 -
  register g =e7 -
  register h =e8 -
  register i =e9 -
  register j =e10 -
  register k =e11 -
a response that is too large
  register x =probe -
  ext-next x
  next
  invoke a =1
  response-too-large a
  response a =2
  next
""", WARM: """
three invocations
  next
  invoke a ={"n":1}
  response a ={"n":2}
  next
  invoke b =
  response b =
  next
  invoke c ={"escapes":"\\u00e9\\n"}
  failure c REPORT
a second invocation
  next
  invoke a =1
  invoke b =2
  response a =3
  invoke c =4
an answer to an earlier invocation
  next
  invoke a =1
  response a =2
  next
  invoke b =3
  response a =4
  failure a REPORT
  response ? =5
  response b =6
an answer twice
  next
  invoke a =1
  response a =2
  response a =3
  failure a REPORT
a newer Next
  next
  next
  invoke a =1
  next
a Next whose connection ends
  next
  leave
  next
  invoke a =1
  response a =2
  next
a caller that hangs up
  next
  invoke a =1
  hang-up a
  response a =2
  next
  invoke b =3
  response b =4
  next
a long event and a long output
  next
  invoke a =LONG_EVENT
  response a =LONG_OUTPUT
  next
the greatest response
  next
  invoke a =1
  response a =GREATEST
  next
"""}
TIMED = {FRESH: """
a timeout with extensions
  register x =probe is
  register y =other i
  ext-next y
  ext-next x
  next
  invoke a =1
  ext-next x
  wait
  ext-next x
  response a =2
an extension that has not asked again at the timeout
  register x =probe i
  register y =other s
  ext-next y
  ext-next x
  next
  invoke a =1
  response a =2
  next
  wait
  ext-next y
an Init that is longer than the timeout
  register x =probe -
  ext-next x
  invoke a =1
  wait
  next
  response a =2
""", WARM: """
a late response
  next
  invoke a =1
  wait
  response a =2
a Next that waits
  next
  wait
  invoke a =1
  response a =2
  next
"""}


def sequences_of(text: str, start: str) -> List[Sequence]:
    """The sequences of a text, in which an indented line is a call and another one the name of a sequence."""
    found: List[Sequence] = []
    text = text.replace("REPORT", REPORT)
    for word, long in LONG.items():
        text = text.replace(word, long)
    for line in filter(str.strip, text.splitlines()):
        if line.startswith(" "):
            name, _, calls = found[-1]
            found[-1] = Sequence(name, start, calls + calls_of(line))
        else:
            found.append(Sequence(line, start, ()))
    return found


@functools.lru_cache(None)
def worked(start: str) -> Tuple[Sequence, ...]:
    return tuple(sequences_of(PARTS[start], start))


@functools.lru_cache(None)
def timed(start: str) -> Tuple[Sequence, ...]:
    return tuple(sequences_of(TIMED[start], start))


def with_ending(plan: Plan) -> Sequence:
    """Returns the sequence, followed by calls that end its generation, or answer what is open and wait again."""
    sequence = plan.sequence
    waits = any(call.kind == "wait" for call in sequence.calls)
    if sequence.start == FRESH or (waits and not plan.waiting()):
        taken = sorted(taken_registrations(plan))
        ending = [Call("ext-exit-failure", sequence.calls[place].label, (REPORT,)) for place in taken]
        ending.append(Call("init-failure", "", (REPORT,)))
    else:
        ending = [Call("next")]
        delivered = [given for step in plan.steps for given in step if given.answer.word is Word.DELIVER]
        if delivered:
            last = plan.label_of(count_in(delivered[-1].answer.request or "0")) or NEVER_GIVEN
            ending.insert(0, Call("response", last, ('="the%20last"',)))
    return sequence._replace(calls=sequence.calls + tuple(ending))


def ends_well(plan: Plan) -> bool:
    """Whether it leaves an environment of which nothing has been heard, or whose runtime alone waits."""
    last, waiting = plan.sequence.calls[-1].kind, plan.waiting()
    if last == "init-failure":
        own = plan.own(len(plan.sequence.calls) - 1)
        return own is not None and own.word is Word.ACCEPTED and not waiting
    return last == "next" and waiting == [len(plan.sequence.calls) - 1]


def plans_of(sequences: Iterable[Sequence], oracle: Oracle) -> List[Plan]:
    """Plans of those that can be played and leave a known state."""
    known = [playable(plan) for plan in oracle.plans(list(sequences))]
    ended = [with_ending(plan) for plan in oracle.plans(known)]
    return [plan for plan in oracle.plans(ended) if ends_well(plan) and playable(plan) == plan.sequence]


def labels_of(calls: Iterable[Call], kind: str) -> List[str]:
    return [call.label for call in calls if call.kind == kind] or [NEVER_GIVEN]
