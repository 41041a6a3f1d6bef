# The handler that `./lambda_local conformance runtime` expects, for examples/runtime.sh: _HANDLER=conformance.handler.
# It relies on the kit's events, which are compact, `do` first and `value` last.
# shellcheck shell=sh

handler() {
  case $1 in '{"do":"'*) ;; *) printf '%s' "$1" && return ;; esac
  rest=${1#'{"do":"'}
  do=${rest%%\"*}
  value=null
  case $rest in *'"value":'*) value=${rest#*'"value":'} && value=${value%'}'} ;; esac
  case $do in
  echo) printf '%s' "$value" ;;
  bytes) printf '[%s]' "$(bytes_of "$value")" ;;
  large) printf '"' && head -c "$value" /dev/zero | tr '\0' x && printf '"' ;;
  stream) printf '%s' "$value" | sed 's/^\[//; s/\]$//; s/","//g' ;;
  sleep) pause "$value" && printf '%s' "$value" ;;
  context) seen "$value" ;;
  print) echo "$value" >&2 && echo null ;; # (this runtime's responses are what a handler prints)
  fail) fail "$rest" ;;
  exit) kill -KILL $$ ;;
  hang) sleep 1000 ;;
  esac
}

# The bytes of a JSON string without escapes: numbers with commas between them.
bytes_of() {
  printf '%s' "$1" | sed 's/^"//; s/"$//' | od -An -v -tu1 | tr -s ' \n' ' ' | sed 's/^ //; s/ $//; s/ /,/g'
}

# Sleeps for this many milliseconds.
pause() { sleep "$(printf '%d.%03d' $(($1 / 1000)) $(($1 % 1000)))"; }

remaining() { echo $(($(header Lambda-Runtime-Deadline-Ms) - $(date +%s%3N))); }

seen() {
  first=$(remaining)
  pause "$1"
  printf '{"requestId":"%s","functionArn":"%s","remaining":[%d,%d],"traceId":"%s"}' \
    "$(header Lambda-Runtime-Aws-Request-Id)" "$(header Lambda-Runtime-Invoked-Function-Arn)" \
    "$first" "$(remaining)" "$_X_AMZN_TRACE_ID"
}

# Prints the report, with type and message exactly as in the event.
fail() {
  type=${1#*'"type":'}
  printf '{"errorType":%s,"errorMessage":%s' "${type%%,*}" "${1#*'"message":'}"
  return 1
}
