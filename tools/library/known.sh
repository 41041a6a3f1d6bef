# shellcheck shell=sh disable=SC2154,SC2034
# What the launcher and tools/build have in common: where a program may be, and what its choice depends on.
# Both read this file with $root, the folder of the checkout, and $rt, the kit's rt or nothing (symbolic links
# resolved).

# The folder of the checkout, and the user's own for a checkout that the user cannot write.
own_folder=$root/crates/lambda_local/out
cache_folder=${XDG_CACHE_HOME:-${HOME:-/nonexistent}/.cache}/lambda_local$root
notes=looked_at

# Sets $logic to the sum of the logic of the kit that is here, or to nothing. It is read from the kit's file: asking
# its rt takes longer than a start.
read_logic() {
  kit=''
  [ -z "$rt" ] || [ ! -r "${rt%/bin/rt}/KIT-ID" ] || read -r kit <"${rt%/bin/rt}/KIT-ID"
  find_logic
}

find_logic() { case $kit in *" logic "*) logic=${kit##* logic } ;; *) logic='' ;; esac; }

# Prints the program $1, the logics $2 that were compared, then size, times and number of each file by which the program
# was chosen: sources, program, stamp. The kit is none of that: a program is of its sources.
look_at() {
  echo "$1" && echo "$2"
  (cd "$root" && find lambda_local crates.txt HANDLES tools/build tools/library \
    crates/*/src crates/*/specs crates/*/proofs "$1" "$1.proved" "$1.stamp" \
    -type f -printf '%p %s %T@ %C@ %i\n' 2>/dev/null)
}

# Finds the $program that tools/build chose, if nothing that it looked at has changed since, and if the kit that is
# here, if any, has the logic that it compared with the program's.
find_known() {
  read_logic
  for folder in "$own_folder" "$cache_folder"; do
    [ -r "$folder/$notes" ] && { read -r program && read -r compared; } <"$folder/$notes" || continue
    [ -z "$logic" ] || [ "$logic" = "${compared%% *}" ] || continue
    look_at "$program" "$compared" | cmp -s - "$folder/$notes" && return
  done
  return 1
}
