#!/bin/bash
# The bootstrap of AWS's tutorial for custom runtimes, with the Init's error that the tutorial leaves out: each event
# has a new file for the headers of its answer, which is never removed.
set -eu

api="http://${AWS_LAMBDA_RUNTIME_API}/2018-06-01/runtime"
file="$LAMBDA_TASK_ROOT/$(echo "$_HANDLER" | cut -d. -f1).sh"
fails() {
  curl -sS -X POST "$api/init/error" -d "{\"errorMessage\":\"$1\",\"errorType\":\"Runtime.$2\"}" \
    -H "Lambda-Runtime-Function-Error-Type: Runtime.$2" > /dev/null
  exit 1
}

[ -f "$file" ] || fails "there is no file $file" NoSuchHandler
sh -n "$file" 2> /dev/null || fails "$file does not compile" Syntax
# shellcheck source=/dev/null
. "$file" || fails "the Init failed" InitFailed

header() { grep -Fi "$1" "$HEADERS" | tr -d '[:space:]' | cut -d: -f2-; }

while true; do
  HEADERS="$(mktemp)"
  EVENT_DATA=$(curl -sSf -LD "$HEADERS" -X GET "$api/invocation/next")
  REQUEST_ID=$(header Lambda-Runtime-Aws-Request-Id)
  _X_AMZN_TRACE_ID=$(header Lambda-Runtime-Trace-Id || true)
  export _X_AMZN_TRACE_ID
  answer="$(mktemp)"
  if handler "$EVENT_DATA" > "$answer"; then kind=response; else kind=error; fi
  curl -sS -X POST "$api/invocation/$REQUEST_ID/$kind" --data-binary "@$answer" > /dev/null
  rm "$answer"
done
