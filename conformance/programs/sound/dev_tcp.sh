#!/bin/bash
# A runtime in bash alone: /dev/tcp, a connection for each request, and nothing of curl.
host=${AWS_LAMBDA_RUNTIME_API%:*} port=${AWS_LAMBDA_RUNTIME_API#*:} root=/2018-06-01/runtime
work=$(mktemp -d)
trap 'rm -rf "$work"' EXIT

# Sends METHOD PATH [FILE]: leaves the status in $status, the head in $work/head and the body in $work/body.
ask() {
  exec 3<> "/dev/tcp/$host/$port" || exit 1
  {
    printf '%s %s HTTP/1.1\r\nHost: %s\r\nConnection: close\r\n' "$1" "$root/$2" "$AWS_LAMBDA_RUNTIME_API"
    if [ "$1" = POST ]; then printf 'Content-Type: application/json\r\nContent-Length: %d\r\n' "$(stat -c %s "$3")"; fi
    printf '\r\n'
    if [ "$1" = POST ]; then cat "$3"; fi
  } >&3
  cat <&3 > "$work/reply"
  exec 3>&-
  [ -s "$work/reply" ] || return 1
  while :; do # (an answer before the final one)
    sed '/^\r*$/q' "$work/reply" | tr -d '\r' > "$work/head"
    status=$(head -n 1 "$work/head" | cut -d ' ' -f 2)
    tail -c "+$(($(sed '/^\r*$/q' "$work/reply" | wc -c) + 1))" "$work/reply" > "$work/body"
    case $status in 1*) mv "$work/body" "$work/reply" ;; *) break ;; esac
  done
  if grep -qi '^transfer-encoding:' "$work/head"; then
    unchunk < "$work/body" > "$work/whole" && mv "$work/whole" "$work/body"
  fi
}

unchunk() {
  local size
  while IFS= read -r size && size=$((16#${size%%[!0-9A-Fa-f]*})) && [ "$size" -gt 0 ]; do
    head -c "$size"
    IFS= read -r _
  done
}

header() { sed -n "s/^$1:[ 	]*//Ip" "$work/head" | head -n 1; }

file="$LAMBDA_TASK_ROOT/${_HANDLER%%.*}.sh"
# shellcheck source=/dev/null
if [ ! -f "$file" ] || ! bash -n "$file" 2> /dev/null || ! . "$file"; then
  printf '{"errorMessage":"%s cannot be loaded","errorType":"Runtime.NoSuchHandler"}' "$file" > "$work/answer"
  ask POST init/error "$work/answer"
  exit 1
fi
while :; do
  ask GET invocation/next || ask GET invocation/next || exit 1
  [ "$status" = 200 ] || exit 1
  request=$(header Lambda-Runtime-Aws-Request-Id)
  _X_AMZN_TRACE_ID=$(header Lambda-Runtime-Trace-Id)
  export _X_AMZN_TRACE_ID
  if handler "$(cat "$work/body")" > "$work/answer"; then kind=response; else kind=error; fi
  ask POST "invocation/$request/$kind" "$work/answer"
  [ "$status" != 500 ] || exit 1
done
