# shellcheck shell=bash disable=SC2154
# Steps of a container's life, each printed with its result. Sourced; $w is an empty folder.
bad=0
step() { # NAME COMMAND..
	name=$1; shift
	timeout 600 "$@" > "$w/out" 2>&1 < /dev/null
	rc=$?
	if [ $rc = 0 ]; then
		printf '  %-58s ok\n' "$name"
	else
		printf '  %-58s FAILED %s: %s\n' "$name" "$rc" "$(tail -n 3 "$w/out" | tr '\n' '~')"
		bad=$((bad + 1))
	fi
}
refused() { # NAME WORDS COMMAND..: the command fails, and says these words
	name=$1; words=$2; shift 2
	step "$name" sh -c 'w=$1; shift; if "$@" > "$0" 2>&1; then exit 1; fi; cat "$0"; grep -q "$w" "$0"' "$w/said" "$words" "$@"
}
says() { # NAME TEXT COMMAND..: exactly that on standard output
	name=$1; text=$2; shift 2
	step "$name" sh -c 'text=$1; shift; got=$("$@") && echo "$got" && [ "$got" = "$text" ]' sh "$text" "$@"
}
soon() { # NAME COMMAND..: it succeeds within some minutes
	name=$1; shift
	step "$name" sh -c 'i=0; until "$@"; do i=$((i + 1)); [ $i -lt 3000 ] || exit 1; sleep 0.1; done' sh "$@"
}
