# shellcheck shell=sh disable=SC3045
# How a service is begun, by ./lambda_local and by the tools: with many descriptors, and with a limit of its memory if
# there is one for this process. Without that a control group's end of memory is a kill, with the history lost; with it
# the program refuses what needs more, by its own words.

# Sets $allowed to the least number of bytes that the control groups of a process allow, or to nothing: $1 is its
# /proc/PID/cgroup, $2 the folder of all groups. A container may see a group's path that is not in its folder; its own
# group is then the folder itself. (Version 1 writes a number near 2^63 if any is allowed, version 2 `max`.)
find_allowed() {
  allowed=''
  while IFS=: read -r _ kinds path; do
    case ,$kinds, in
    ,,) found=memory.max folders="$2 $2/unified" ;;
    *,memory,*) found=memory.limit_in_bytes folders="$2/memory" ;;
    *) continue ;;
    esac
    path=${path%/}
    while :; do
      for folder in $folders; do take_least "$folder$path/$found"; done
      [ -n "$path" ] || break
      path=${path%/*}
    done
  done <"$1"
}

take_least() {
  [ -r "$1" ] && read -r bytes <"$1" || return 0
  case $bytes in '' | *[!0-9]* | ????????????????*) return ;; esac
  [ -n "$allowed" ] && [ "$allowed" -le "$bytes" ] || allowed=$bytes
}

# Sets $allowed to what LAMBDA_LOCAL_MEMORY says, in megabytes of 2^20 bytes, if it says something.
read_own() {
  case ${LAMBDA_LOCAL_MEMORY-} in
  '') return ;;
  unlimited) allowed='' && return ;;
  [1-9]*) own=$LAMBDA_LOCAL_MEMORY ;;
  *) own=0 ;;
  esac
  case $own in *[!0-9]* | ????????*) own=0 ;; esac
  [ "$own" -ge 16 ] || {
    echo "lambda_local: LAMBDA_LOCAL_MEMORY is '$LAMBDA_LOCAL_MEMORY': it is a whole number of megabytes from 16 to" \
      "9999999, or unlimited" >&2
    exit 2
  }
  allowed=$((own * 1048576))
}

# Limits the memory that the program may write to (ulimit -d): its heap, and the stacks of its threads, of which little
# is used. Two have the size that the shell gives (2 MB if that is unlimited), each connection's has 512 KB. An eighth
# and 8 MB are left for what the system keeps for the program: sockets' buffers, tables of pages. A lower limit of the
# shell's own stays.
limit_memory() {
  [ -r /proc/self/cgroup ] && find_allowed /proc/self/cgroup /sys/fs/cgroup
  read_own
  [ -n "$allowed" ] || return 0
  stack=$(ulimit -s)
  [ "$stack" != unlimited ] || stack=2048
  kilobytes=$((allowed * 7 / 8192 - 8192 + 2 * stack))
  { now=$(ulimit -d) && [ "$now" != unlimited ] && [ "$now" -le "$kilobytes" ]; } ||
    ulimit -S -d "$kilobytes" 2>/dev/null
}

# Sets the limits for the command $1 of the program.
prepare() {
  # A connection takes three descriptors.
  ulimit -n "$(ulimit -Hn)" 2>/dev/null
  [ "$1" != serve ] || limit_memory
}

# Becomes the program $1, with these arguments.
begin() {
  prepare "${2-}"
  exec "$@"
}
