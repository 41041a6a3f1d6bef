"""Which FAILs say nothing new: the first of them is told, and the others are named in the last lines, with the reason
why they are not told."""
import enum
from typing import Callable, Dict, Hashable, NamedTuple, Optional, Tuple

from .kit import Verdict

# Checks that fail as well if one of these has failed: they say nothing new then.
FOLLOWS: Dict[str, Tuple[str, ...]] = {
    "long_text": ("utf8",), "kinds": ("utf8", "long_text", "payload_empty", "payload_null", "payload_scalars"),
    "escapes": ("utf8", "kinds"), "payload_limit": ("long_text",),
    "payload_spaces": ("payload_empty", "payload_null", "payload_scalars"),
    "output_limit": ("payload_limit", "long_text"), "stream": ("utf8", "long_text", "kinds", "escapes"),
    "nesting": ("kinds",), "events_apart": ("payload_null", "payload_scalars"),
    "output_like_error": ("kinds",), "request_id": ("kinds",),
    "many_invocations": ("long_text", "payload_limit", "error_reported", "error_texts"),
    "function_arn": ("request_id",), "deadline": ("request_id",), "remaining_time": ("deadline",),
    "trace_id": ("request_id",), "trace_renewed": ("request_id", "trace_id"),
    "error_message": ("utf8", "kinds"), "error_texts": ("utf8", "kinds", "escapes", "error_reported", "error_message"),
    "after_error": ("error_texts", "request_id", "deadline", "trace_id", "trace_renewed"),
    "init_error_ends": ("init_error",), "ends_at_500_response": ("ends_at_500", "init_error_ends"),
    "ends_at_500_error": ("error_reported", "error_texts", "ends_at_500", "ends_at_500_response", "init_error_ends"),
    "handler_exits": ("init_error_ends", "ends_at_500"), "long_refusal": ("late_response",),
    "late_response": ("long_refusal",),
    "chunked_answers": ("late_response", "long_refusal"),
    "init_error": ("error_message", "error_type", "long_text"), "next_after_response": ("late_response",),
    "closing_answers": ("connection_end", "header_names"), "slow_answers": ("long_text",),
    "cut_event": ("slow_answers", "long_text", "connection_end", "next_after_response"),
    "lost_poll": ("connection_end", "next_after_response"),
    "connection_end": ("asks_after_invoke",),
    "missing_handler": ("init_error",), "missing_function": ("init_error", "missing_handler"),
    "broken_handler": ("init_error",), "responds_once": ("error_reported",),
    "long_handler": ("late_response",),
    # of extensions
    "ends_at_spindown": ("asks_after_invoke",), "many_events": ("asks_after_invoke", "invoke_in_time", "telemetry"),
    "next_without_timeout": ("asks_after_invoke",),
    "header_names": ("asks_after_invoke", "invoke_in_time"),
    "ends_at_timeout": ("asks_after_invoke", "ends_at_spindown"), "ends_at_failure": ("ends_at_spindown",),
    "crash_noticed": ("ends_at_spindown",), "telemetry": ("asks_after_invoke", "identifier"),
    "exit_error": ("init_error",),
    "takes_dropped": ("takes_telemetry",), "takes_logs": ("takes_telemetry",), "takes_again": ("takes_telemetry",),
    "unknown_event": ("asks_after_invoke",),
    "ends_at_500": ("init_error_ends", "ends_at_spindown", "crash_noticed"),
    "ends_at_500_register": ("crash_noticed", "ends_at_500"), "refused_registration": ("ends_at_500_register",),
    "refused_next": ("ends_at_spindown", "crash_noticed", "ends_at_500"),
}


class Because(enum.Enum):
    """Why a FAIL is not told once another one has been, as the words between the two."""
    CAUSE = "for the same cause as"  # which the connections show
    BUILDS = "in what builds on"
    WORDS = "with the same words as"


class Known(NamedTuple):
    """What is known of a FAIL by one that was told."""
    because: Because
    first: str  # the check of that one
    cause: str = ""  # if the connections show it


class Causes:
    """The FAILs of a run so far."""

    def __init__(self) -> None:
        self._told: Dict[Hashable, str] = {}  # by what FAILs have in common: the checks whose FAILs were told
        self._failed: Dict[str, str] = {}  # by the name of each check that failed: that of the FAIL that was told

    def known(self, verdict: Verdict, notes: bool = True) -> Optional[Known]:
        """Notes a FAIL, or looks at it alone: why it is not told; none if it is to be."""
        name, found, cause = verdict.check.name, verdict.found, verdict.seen.cause
        # (the same words about another request of the handler may have another cause)
        key: Hashable = cause or found.about or (verdict.seen.asked, found.key)
        has_failed: Callable[[str], bool] = self._failed.__contains__
        before = next(filter(has_failed, (*FOLLOWS.get(name, ()), *found.about)), None)
        known = None
        if key in self._told:
            known = Known(Because.CAUSE if cause else Because.BUILDS if found.about else Because.WORDS, self._told[key],
                          cause)
        elif before and before != name:
            known = Known(Because.BUILDS, self._failed[before])
        if notes:
            self._told.setdefault(key, known.first if known else name)
            self._failed[name] = known.first if known else name
        return known
