#!/usr/bin/env bash
# mount/build fails, and leaves no older program: bash failed_builds.sh MOUNT/BUILD
set -u
build=$1 wrong=0
room=$(mktemp -d) || exit 1
trap 'rm -rf "$room"' EXIT
mkdir "$room/tools" "$room/out"
for tool in bash dirname env id mkdir mktemp rm; do ln -s "$(command -v $tool)" "$room/tools/$tool"; done

fails() { # NAME STATUS WORD=..
  echo old >"$room/out/makhloeum"
  env -u OBJECTS OUT="$room/out" "$3" "$build" >"$room/said" 2>&1
  local status=$?
  [ $status = "$2" ] && [ ! -e "$room/out/makhloeum" ] && return
  wrong=$((wrong + 1))
  echo "  $1: status $status, not $2; in the folder: $(ls "$room/out")"
  cat "$room/said"
}
fails "without a compiler" 3 PATH="$room/tools"
fails "without the engine's library" 1 MAKHLOEUM_LIB="$room/none"
fails "with an option that the compiler refuses" 123 CFLAGS_MORE=--no-such-option
echo "  3 steps, $wrong failed"
[ $wrong = 0 ]
