#!/bin/sh
# A runtime in shell, with curl alone, as the bootstrap of AWS's tutorial "Building a custom runtime": the handler
# function.handler is the shell function `handler` of function.sh. It is given the event, and prints its output. If its
# status is not 0, that is the invocation's error, and what it prints, if anything, is the report. The headers of the
# invocation are in $head: `header Lambda-Runtime-Deadline-Ms` prints one.
#
# usage: _HANDLER=function.handler examples/runtime.sh   (without _HANDLER it greets; AWS_LAMBDA_RUNTIME_API has the
# address, else it is 127.0.0.1:9001; function.sh is found from LAMBDA_TASK_ROOT, else from the folder you are in)
set -u
runtime=http://${AWS_LAMBDA_RUNTIME_API:-127.0.0.1:9001}/2018-06-01/runtime
end_of_head=$(printf '\r\n\r\n.')
end_of_head=${end_of_head%.}

# Posts standard input to a path. What the service says of a refusal goes to standard error. The status is 1 after 500.
post() {
  answer=$(curl -sS -w ' %{http_code}' --data-binary @- "$runtime/$1")
  case $answer in *" 200" | *" 202") ;; *) echo "runtime.sh: refused: $answer" >&2 ;; esac
  case $answer in *" 500") return 1 ;; esac
}

# The value of a header of $head.
header() { printf '%s\n' "$head" | tr -d '\r' | grep -i "^$1:" | cut -d ' ' -f 2-; }

fail_init() {
  echo "runtime.sh: $1: $2" >&2
  echo "{\"errorType\":\"$1\",\"errorMessage\":\"$2\"}" | post init/error
  exit 1
}

greet() { echo '{"greeting":"Hello from the shell!"}'; }

function=greet
if [ -n "${_HANDLER-}" ]; then
  file=${LAMBDA_TASK_ROOT:-.}/${_HANDLER%.*}.sh
  function=${_HANDLER##*.}
  [ -r "$file" ] || fail_init Runtime.ImportModuleError "there is no $file"
  sh -n "$file" || fail_init Runtime.UserCodeSyntaxError "$file does not compile"
  # shellcheck disable=SC1090
  . "$file" || fail_init Runtime.InitFailed "$file ended with status $?"
  command -v "$function" >/dev/null || fail_init Runtime.HandlerNotFound "$file has no function $function"
fi

while reply=$(curl -sSi "$runtime/invocation/next"); do
  head=${reply%%"$end_of_head"*}
  event=${reply#*"$end_of_head"}
  case $head in
  "HTTP/1.1 200 "*) ;;
  "HTTP/1.1 403 "*) sleep 0.05 && continue ;; # an earlier process took the invocation that is still open here
  *) exit 0 ;;                                # 500, the container error: the runtime should exit promptly
  esac
  request=$(header Lambda-Runtime-Aws-Request-Id)
  _X_AMZN_TRACE_ID=$(header Lambda-Runtime-Trace-Id)
  export _X_AMZN_TRACE_ID
  if output=$("$function" "$event"); then
    printf '%s' "$output" | post "invocation/$request/response" || exit 0
  else
    status="{\"errorType\":\"ExitStatus\",\"errorMessage\":\"$function ended with status $?\"}"
    printf '%s' "${output:-$status}" | post "invocation/$request/error" || exit 0
  fi
done
