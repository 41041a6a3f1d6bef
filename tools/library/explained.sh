# shellcheck shell=sh disable=SC2154
# How ./lambda_local starts the $program so that a fault in a configuration, a script or a variable (status 2) gets a
# sentence beside the program's own line. $root is the folder of the checkout.
#
# `serve` must be this process, so that signals reach it: it is asked beforehand, by a replay of its configuration
# without a call, whether it takes it. A replay of a file ends by itself, and is a child, to which signals are passed
# on. What goes to a replay of a pipe passes through the explaining program, since what was read is gone.

explain() {
  PYTHONPATH=$root/tools python3 -m lambda_local.explain "$program" "$@" || exit 2
}

# Whether the program would serve the configuration $1, by these variables.
takes() {
  [ -f "$1" ] && [ -r "$1" ] || return 0
  if [ -n "${LAMBDA_LOCAL_PATIENCE_MS+x}${LAMBDA_LOCAL_HOSTS+x}${LAMBDA_LOCAL_HANDLED+x}" ]; then
    case $("$program" serve /dev/null 2>&1) in usage:*) return 1 ;; esac
  fi
  { echo "form 2" && tr '\r\n' '  ' <"$1" && echo; } | "$program" replay >/dev/null 2>&1
  [ $? -ne 2 ]
}

replay_pipe() {
  command -v python3 >/dev/null || exec "$program" "$@"
  export PYTHONPATH="$root/tools"
  exec python3 -m lambda_local.explain "$program" piped "$@"
}

serve_or_explain() {
  takes "$1" && exec "$program" serve "$1"
  "$program" serve "$1"
  refused=$?
  [ $refused -ne 2 ] || explain serve "$1"
  exit $refused
}

replay_or_explain() {
  came='' child=''
  for name in HUP INT QUIT TERM; do
    # shellcheck disable=SC2064
    trap "came=$name; [ -z \"\$child\" ] || kill -TERM \"\$child\" 2>/dev/null" "$name"
  done
  exec 3<&0
  # (what a shell starts in the background reads from /dev/null)
  "$program" "$@" <&3 3<&- &
  child=$!
  [ -z "$came" ] || kill -TERM "$child"
  wait "$child" 2>/dev/null
  ended=$?
  [ -z "$came" ] || { wait "$child" 2>/dev/null; ended=$?; }
  trap - HUP INT QUIT TERM
  [ -z "$came" ] || kill -s "$came" $$
  [ $ended -le 128 ] || kill -$((ended - 128)) $$
  [ $ended -ne 2 ] || explain replay </proc/self/fd/3
  exit $ended
}
