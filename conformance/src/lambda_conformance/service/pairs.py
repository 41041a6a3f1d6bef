"""The sequences for a function with two environments. An invocation is for the one that is ready, so that it does not
matter by which rule a service chooses; each sequence leaves both fresh."""
from typing import List

from .oracle import FRESH, Oracle, Plan, playable
from .sequences import sequences_of

BOTH_BEGIN = """\
  register x =one -
  ext-next x
  next
  invoke a =1
  @2 register y =two -
  @2 ext-next y
  @2 next
  invoke b =2
"""
BOTH_END = """\
  ext-exit-failure x REPORT
  @2 ext-exit-failure y REPORT
  init-failure REPORT
  @2 init-failure REPORT
"""
PAIRS = """
an invocation in each environment
  BOTH BEGIN
  @2 response b =3
  response a =4
  next
  @2 next
  BOTH END
three invocations at once
  BOTH BEGIN
  invoke c =3
  response a =4
  @2 response b =5
  BOTH END
an answer at the other environment
  BOTH BEGIN
  @2 response a =3
  response b =4
  failure b REPORT
  response a =5
  @2 response b =6
  BOTH END
an environment that fails
  register x =one is
  ext-next x
  next
  invoke a =1
  @2 register y =two is
  @2 ext-next y
  @2 next
  invoke b =2
  ext-exit-failure x REPORT
  @2 ext-next y
  @2 response b =3
  @2 next
  invoke c =4
  @2 response c =5
  @2 ext-exit-failure y REPORT
  init-failure REPORT
  @2 init-failure REPORT
a timeout in one environment
  register x =one is
  ext-next x
  next
  invoke a =1
  @2 register y =two is
  @2 ext-next y
  @2 next
  wait
  ext-next x
  ext-next x
  invoke b =2
  @2 ext-next y
  @2 response b =3
  @2 next
  @2 ext-exit-failure y REPORT
  init-failure REPORT
  @2 init-failure REPORT
extensions of the same name
  register x =probe i
  @2 register y =probe i
  @2 ext-next x
  ext-next y
  ext-next x
  @2 ext-next y
  BOTH END
""".replace("  BOTH BEGIN\n", BOTH_BEGIN).replace("  BOTH END\n", BOTH_END)


def pairs_of(oracle: Oracle, with_timeouts: bool = True) -> List[Plan]:
    """Plans of these, with those that wait for a timeout or without."""
    return [plan for plan in oracle.plans(sequences_of(PAIRS, FRESH))
            if playable(plan) == plan.sequence and not plan.waiting()
            and (with_timeouts or all(call.kind != "wait" for call in plan.sequence.calls))]
