"""For each file of tests a deliberate fault at which it has to fail: its own words (pieces of the names of the tests
that are run, else all, and variables), the file with the fault, what stands there, and the fault."""
import ast
import hashlib
import os
import re
from typing import Dict, Iterator, Tuple

from tests.library import tool_tests

NOTED = os.path.join("tests", "library", "lies.noted")
OF_TOOLS, OF_SUITE = "tools/lambda_local/", "conformance/src/lambda_conformance/"
OF = {"": "", "OF_TOOLS": OF_TOOLS, "OF_SUITE": OF_SUITE}
LIES: Dict[str, Tuple[str, str, str, str]] = {
    "alb_events": ("several_values", OF_TOOLS + "front/alb.py", "found.setdefault(name.lower(), []).append(value)",
                   "found[name.lower()] = [value]"),
    "authorizers": ("a_policy_allows_or_denies", OF_TOOLS + "front/policies.py", 'statement["Effect"] == "Deny"',
                    "False"),
    "batches": ("are_tried_together", "tests/library/batches.py", "and not newcomer.mentions(it)", "and True"),
    "ci_files": ("the_image_is_made", "tools/packages/folder.py", "launched(XDG_CACHE_HOME=folder)",
                 "launched(HOME=folder) + 'x'"),
    "clock": ("times_are_numbers what_is_no_time", OF_TOOLS + "clock/durations.py",
              "        if UNITS[unit] >= before:\n", "        if False:\n"),
    "trouble": ("faults_of_the_command", OF_TOOLS + "trouble.py", 'options.kind not in REPORTS:',
                'options.kind in REPORTS:'),
    "storm": ("a_course_is_of_its_seed", OF_TOOLS + "storm.py", "            self.spared = SPARED\n",
              "            self.spared = 0\n"),
    "debuggers": ("without_pytest", OF_TOOLS + "held.py", "        HELD.enter()\n", "        pass\n"),
    "up_clock": ("an_event_is_too_old", OF_TOOLS + "front/queue.py", "        if self.age(event) > (oldest",
                 "        if self.age(event) > 9 * (oldest"),
    "troubles": ("a_crash_is_reported", OF_TOOLS + "in_process.py",
                 '        if trouble == "crash":', '        if trouble == "cash":'),
    "compatibility": ("is_found", "tests/compatibility/run", 'return "" if old == new else', 'return "" if True else'),
    "api_stages": ("mistakes_of_stages", OF_TOOLS + "front/settings.py", 'given.get("stage") == NO_STAGE', "False"),
    "conformance": ("a_failure_is_explained", OF_SUITE + "report.py",
                    "return 1 if self.counts[FAIL]", "return 0 if self.counts[FAIL]"),
    "conformance_parts": ("memory", OF_SUITE + "leaks.py",
                          "or grown < rule.least:", "or grown < 9 * rule.least:"),
    "conformance_proxy": ("each_way", OF_SUITE + "proxy.py",
                          "            service.sendall(data)", "            service.sendall(data[:1000])"),
    "conformance_remote": ("what_is_beyond_this_machine", OF_SUITE + "service/remote.py",
                           'host.endswith(".localhost")', '"localhost" in host'),
    "conformance_reports": ("parts", OF_SUITE + "kit.py",
                            "self._begun.setdefault(name, self._part_begun())", "self._moments[0]"),
    "conformance_service": ("each_fault_is_found CONFORMANCE_FAULTS=registers-late",
                            OF_SUITE + "service/judge.py",
                            "if exchange.status != wanted:", "if False:"),
    "conformance_service_parts": ("timeouts_on_a_busy_machine", OF_SUITE + "service/judge.py",
                                  "fits = -TOLERANCE <= late <= most", "fits = late <= most"),
    "counting": ("a_check_counts", "tests/library/counted.py",
                 "isinstance(wanted, bool) and not isinstance(seen, bool):", "False:"),
    "destinations": ("attributes_are_what mistakes_of_destinations", OF_TOOLS + "front/events.py",
                     "[:MOST_MESSAGE]", "[:MOST_MESSAGE + 2]"),
    "events": ("an_event_that_fails", OF_TOOLS + "front/queue.py",
               "        event.attempts += 1\n", "        event.attempts += 2\n"),
    "events_faults": ("only_if_its_attempt_failed", OF_TOOLS + "front/queue.py",
                      "        if status == 429:\n", "        if status == 429 and False:\n"),
    "events_load": ("mixed_load LOAD_SECONDS=10", OF_TOOLS + "front/queue.py",
                    "        lane.ready.appendleft(event)\n", "        pass\n"),
    "explained": ("a_refused_line_of_a_script", OF_TOOLS + "configuration.py",
                  "must be from 1 to 900 seconds", "must be from 1 to 800 seconds"),
    "files": ("what_fails_leaves_the_file", OF_TOOLS + "outgoing.py", "        os.replace(beside, place)\n",
              "        os.replace(beside, place + '.new')\n"),
    "forking": ("the_same_as_a_fresh_one", OF_TOOLS + "forker.py", "    sys.argv[:] = [path]\n", "    pass\n"),
    "from_template": ("a_condition_that_cannot", OF_TOOLS + "from_template/values.py",
                      'raise Unknown(f"there is no condition {condition}")', "return True"),
    "from_template_parts": ("schedules_of_SAM", OF_TOOLS + "from_template/schedules.py",
                            '("Schedule", "ScheduleV2")', '("ScheduleV2",)'),
    "front_answers": ("where_the_next_begins", OF_TOOLS + "front/handler.py", "if reply.status == 205:", "if False:"),
    "front_connections": ("the_fronts_own_heads", OF_TOOLS + "front/relay.py",
                          "for name in (TYPE, TRACE, LOG_TYPE", "for name in (TYPE, LOG_TYPE"),
    "front_handler": ("what_is_none", OF_TOOLS + "front/handed.py", "and is_field_value(value)", ""),
    "fuzz": ("any_report FUZZ_HOURS=0.02", OF_TOOLS + "outgoing.py", "return UNSAFE.sub(_escaped, text)",
             "return text"),
    "gate_record": ("what_a_run_proves", "tests/library/crate_seconds.py", "if it not in self.proved]", "if True]"),
    "handled_ports": ("read_in_two_ways", OF_TOOLS + "front/handler.py", "if handed.port == self.service and handed",
                      "if handed"),
    "handler_streams": ("many_streams", OF_TOOLS + "http1/chunks.py", "parts.append(text[start:start + size])",
                        "parts.append(text[start:start + size - 1])"),
    "handlers": ("what_may_be_handed_over", OF_TOOLS + "exchange/connection.py", '("Host", self.host), *headers]',
                 '("Host", self.host)]'),
    "hostile_projects": ("files_outside", OF_TOOLS + "from_template/files.py",
                         "if os.path.commonpath([self.path, path]) != self.path:", "if False:"),
    "history": ("goes_on_with_the_next_entry", OF_TOOLS + "history/running.py", "&from={self.next}", "&from=0"),
    "histories": ("", OF_TOOLS + "history/reader.py", "if entry.ticket != self.next:", "if False:"),
    "http1": ("each_case_of_the_table_is_read", OF_TOOLS + "http1/framing.py", 'return named[-1] == "chunked"',
              "return bool(named)"),
    "http_events": ("a_request_becomes_an_event", OF_TOOLS + "front/payload.py",
                    '"isBase64Encoded": True}', '"isBase64Encoded": False}'),
    "invocation_log": ("a_tail_has_the_lines", OF_TOOLS + "up/invocation_log.py", "MOST_TAIL = 4096",
                       "MOST_TAIL = 4090"),
    "install": ("another_machine_is_refused", "tools/packages/source.py", "GLIBC = (2, 34)", "GLIBC = (2, 31)"),
    "invoke": ("go_to_and_fro", OF_TOOLS + "invoke.py",
               "        return 1\n    return 0\n", "        return 0\n    return 0\n"),
    "limits": ("nine_tenths_of_an_answer", OF_TOOLS + "up/limits.py", "if length >= NEARLY * MOST_OUTPUT",
               "if length >= MOST_OUTPUT"),
    "javascript": ("handlers_run_in", "javascript/function_error.js",
                   "report.errorType : undefined", "report.type : undefined"),
    "launcher": ("each_tool_has_its_help", OF_TOOLS + "help.txt", "conformance", "conformity"),
    "little_memory": ("a_limit_of_the_control", OF_TOOLS + "limits.sh", '[ "$allowed" -le "$bytes" ]',
                      '[ "$allowed" -ge "$bytes" ]'),
    "management": ("refused_by_name", OF_TOOLS + "front/management.py", '"NotImplementedException"',
                   '"NotFoundException"'),
    "moto_queue": ("", OF_TOOLS + "up/queues.py", '(members_of(result) or {}).get("batchItemFailures")', "[]"),
    "moto_streams": ("before_the_reported_record", OF_TOOLS + "event_sources/batches.py", "batch.records[failing:]",
                     "batch.records"),
    "package": ("the_wheel_works", "pyproject.toml", "lambda_local.cli:main", "lambda_local.cli:begin"),
    "must_fail": ("a_verdict_is_by", "tests/library/trials.py", "if told and all(map(NAMES.match, told)):",
                  "if False:"),
    "page_checks": ("dead_lemmas", "tests/library/source_facts.py", "if name not in used)", "if name in used)"),
    "plugin": ("is_reported_as_by", OF_TOOLS + "in_process.py", "            self.owner.keep(request, ",
               "            str("),
    "plugin_events": ("wrong_settings", OF_TOOLS + "front/asynchronous.py", "from 0 to 2", "from 0 to 3"),
    "plugin_sandbox": ("no_client_of_a_handler", OF_TOOLS + "aws_hosts.py",
                       "    return any(plain == name", "    return all(plain == name"),
    "real_projects": ("of_SAM", OF_TOOLS + "from_template/schedules.py", '("Schedule", "ScheduleV2")',
                      '("ScheduleV2",)'),
    "refused_requests": ("refusals_of_one_kind", OF_TOOLS + "telemetry/refusals.py",
                         "elif count == 10 * self.told[kind]:", "elif False:"),
    "relay": ("passing_marks", OF_TOOLS + "up/passing.py", "all(self.held.values())", "any(self.held.values())"),
    "rerun": ("outputs_are_compared_member", OF_TOOLS + "rerun/compare.py", "return [Difference(\"\", then, now)]",
              "return []"),
    "rerun_command": ("faults_are_told", OF_TOOLS + "rerun/functions.py", "there is no function",
                      "there is a function"),
    "rerun_inner": ("roots_tell", OF_TOOLS + "rerun/inner.py", "if root == NO_ROOT:", "if False:"),
    "rest_events": ("a_result_of_a_REST_API", OF_TOOLS + "front/rest_payload.py", '"multiValueHeaders"',
                    '"multipleHeaders"'),
    "runtimes": ("shell", "examples/runtime.sh", "ExitStatus", "ExitCode"),
    "runtimes_http": ("an_exceptions_name", "examples/runtime.mjs", 'errorType : "Unhandled";',
                      "errorType : errorType;"),
    "runtimes_node": ("an_error_is_reported", "examples/runtime.mjs", "cut(() => fault.name)", "typeof fault"),
    "runtimes_python": ("an_error_is_reported", "examples/runtime.py", '"errorType": error_type[',
                        '"errorKind": error_type['),
    "samples": ("values_of_a_sample", OF_TOOLS + "samples.py", "step < len(value)", "step <= len(value)"),
    # (of what a service is asked for, the tools choose the configuration and the environment)
    "service_clock": ("what_is_due_expire", OF_TOOLS + "service.py", '            function["ports"] = [port or',
                      '            function["timeout"] = 3\n            function["ports"] = [port or'),
    "service_refusals": ("each_kind_of_refused", OF_TOOLS + "service.py", "**handled, **self.variables}",
                         '**handled, "LAMBDA_LOCAL_HOSTS": "evil.example.com"}'),
    "shop": ("the_shop", OF_TOOLS + "from_template/services.py", "{sqs}/{account}/{name}",
             "{sqs}/{account}/of-{name}"),
    "short_entries": ("what_goes_on", OF_TOOLS + "history/generations.py",
                      "        environment.becomes(environment.idle)\n", "        pass\n"),
    "six_projects": ("each_of_six", OF_TOOLS + "from_template/stacks.py",
                     "return dict(assets_in(", "return dict(() and assets_in("),
    "sources": ("a_batch_that_fails_stays", OF_TOOLS + "up/queues.py",
                "return Invoked(None, \"failed\")", "return Invoked([], \"\")"),
    "stopping": ("stops_in_order", OF_TOOLS + "service.py", "/_local/stop", "/_local/stops"),
    "stream_filters": ("what_its_rules_say", OF_TOOLS + "event_sources/filters.py",
                       'is bool(wanted["exists"])', 'is not bool(wanted["exists"])'),
    "stream_parts": ("what_follows_a_failed_batch", OF_TOOLS + "event_sources/batches.py", "batch.records[failing:]",
                     "batch.records"),
    "stream_readers": ("the_newest_position", OF_TOOLS + "event_sources/streams.py",
                       "NEWEST if is_newest else OLDEST", "NEWEST"),
    "streaming": ("messages_are_framed", OF_TOOLS + "streaming/frames.py", '"PayloadChunk", ', '"PayloadPart", '),
    "streaming_pairs": ("in_whatever_order", OF_TOOLS + "streaming/streams.py",
                        "if expected and expected.identifier is None:", "if expected:"),
    "telemetry": ("is_read_strictly", OF_TOOLS + "telemetry/subscription.py",
                  'raise Refused("the body is not a JSON object")', "return None"),
    "telemetry_live": ("events_over_HTTP_and_TCP", OF_TOOLS + "telemetry/story.py", '"platform.runtimeDone"',
                       '"platform.done"'),
    "telemetry_stories": ("in_each_schema", OF_TOOLS + "telemetry/schema.py",
                          'return "failure" if status == "error" else status', "return status"),
    "template_values": ("an_env_file", OF_TOOLS + "from_template/env_file.py", "text[begin + 1:close]",
                        "text[begin:close]"),
    "template_authorizers": ("SAMs_REST", OF_TOOLS + "from_template/authorizers.py",
                             'given.text("FunctionPayloadType") != "REQUEST"', "True"),
    "template_streams": ("topics_of_CloudFormation", OF_TOOLS + "from_template/topics.py",
                         'if protocol != "lambda":', "if not protocol:"),
    "templates": ("globals_are_merged", OF_TOOLS + "from_template/cloudformation.py", "return [*shared, *own]",
                  "return [*own]"),
    "template_oracle": ("translator_reads", OF_TOOLS + "from_template/cloudformation.py",
                        "and not is_intrinsic(own):", "and True:"),
    "template_routes": ("REST_APIs_of_SAM", OF_TOOLS + "from_template/routes.py", "BinaryMediaTypes", "BinaryTypes"),
    "terminal": ("what_is_invoked", OF_TOOLS + "outgoing.py", "return UNSAFE.sub(_escaped, text)", "return text"),
    "timeline": ("pictures_of_the_pages", OF_TOOLS + "timeline/words.py", "if milliseconds < 10_000",
                 "if milliseconds < 1_000"),
    "figures": ("each_run_lies_outside", "tests/library/ratios.py", "self.least > bracket.most or",
                "self.middle > bracket.most or"),
    "yardstick": ("heads_are_judged", "bench/serve/plain_http.h", "return !is_other;", "return 1;"),
    "timeline_otlp": ("a_callers_trace", OF_TOOLS + "timeline/otlp.py", "trace or own, own[16:]", "own, own[16:]"),
    "timeline_history": ("whose_replay_differs", OF_TOOLS + "history/comparison.py", "if replayed[:-1] != answer:",
                         "if False:"),
    "timeline_live": ("for_a_browser_on_this_machine", OF_TOOLS + "timeline/served.py",
                      'in ("none", "same-origin")', 'in ("none", "same-site")'),
    "trace": ("traces_of_random TRACES=3", OF_TOOLS + "timeline/world.py",
              "elif now.name.capitalize() != environment.phase:", "elif False:"),
    "trace_followed": ("as_it_comes_until", OF_TOOLS + "history/running.py", "follow=1&from=", "from="),
    "up": ("paused_and_its_caller", OF_TOOLS + "up/restarts.py",
           "PAUSES[min(self.early - 2, len(PAUSES) - 1)] if self.early > 1 else 0", "0"),
    "up_command": ("have_dummy_credentials", OF_TOOLS + "variables.py",
                   '"AWS_SESSION_TOKEN", "AWS_SECURITY_TOKEN"', '"AWS_SECURITY_TOKEN"'),
    "up_defaults": ("an_alias_is_invoked", OF_TOOLS + "front/aliases.py", "in self.aliases.get(qualified[2]",
                    "not in self.aliases.get(qualified[2]"),
    "up_edge": ("for_its_user_alone", OF_TOOLS + "outgoing.py", "0o600 if has_payloads", "0o644 if has_payloads"),
    "up_failures": ("pauses_grow", OF_TOOLS + "up/restarts.py",
                    "PAUSES[min(self.early - 2, len(PAUSES) - 1)] if self.early > 1 else 0", "0"),
    "up_members": ("faults_of_the_service", OF_TOOLS + "configuration.py", "0 is not a port", "0 is a port"),
    "up_output": ("escapes_reach", OF_TOOLS + "outgoing.py", "return UNSAFE.sub(_escaped, text)", "return text"),
    "up_projects": ("a_hostile_layer", OF_TOOLS + "up/layers.py",
                    "return path == folder or path.startswith(folder + os.sep)", "return True"),
    "up_reload": ("but_for_what_git_ignores", OF_TOOLS + "up/reload.py", "is_ignored = not is_taken_back",
                  "is_ignored = is_taken_back"),
    "up_scaling": ("reserved_concurrency", OF_TOOLS + "up/scaling.py",
                   "                    environment.begin()", "                    pass"),
}


def text_of(root: str, path: str) -> str:
    """Nothing if it is not there."""
    try:
        with open(os.path.join(root, path), encoding="utf-8") as file:
            return file.read()
    except OSError:
        return ""


def sum_of(root: str, name: str) -> str:
    """A sum of what a lie is found by: its words, its file of tests and the file with the fault. (Not the commit, which
    git does not know any more once it is one with others.)"""
    paths = tool_tests.files(root)[name].replace(".", "/") + ".py", LIES[name][1]
    found_by = [*LIES[name], *(text_of(root, path) for path in paths)]
    return hashlib.sha256("\0".join(found_by).encode()).hexdigest()[:16]


def notes(root: str) -> Dict[str, str]:
    """The lies that were found, each with the sum at that time."""
    return dict(line.split() for line in text_of(root, NOTED).splitlines())


def untried(root: str) -> Iterator[str]:
    """What files of tests have no lie, or one that was not found yet, or not since what it is found by has changed."""
    found, changed = notes(root), []
    for name, module in tool_tests.files(root).items():
        if name not in LIES:
            yield f"{module} has no lie in tests/library/lies_table.py"
        elif name not in found:
            yield f"the lie of {module} was not found yet: tests/lies {name}"
        elif found[name] != sum_of(root, name):
            changed.append(name)
    if changed:
        yield f"lies whose tests, or whose files, have changed since they were found: tests/lies {' '.join(changed)}"


TABLE = re.compile(r'^    "(\w+)": \("[^"]*",\s+(?:(OF_\w+) \+ )?"([^"]*)",\s+'
                   r'("(?:[^"\\]|\\.)*"|\'(?:[^\'\\]|\\.)*\'),', re.M)


def misfits(root: str) -> Iterator[str]:
    """The lies whose words are not where they should be. It reads the table of that tree, not this one."""
    with open(os.path.join(root, "tests", "library", "lies_table.py"), encoding="utf-8") as file:
        listed = TABLE.findall(file.read())
    if len(listed) < len(LIES):
        yield f"{len(listed)} lies can be read, of {len(LIES)}"
    for name, of, path, old in listed:
        words, where = ast.literal_eval(old), OF[of] + path
        try:
            with open(os.path.join(root, where), encoding="utf-8") as file:
                if words not in file.read():
                    yield f"{name}: {where} has no {words!r}"
        except OSError:
            yield f"{name}: there is no {where}"
