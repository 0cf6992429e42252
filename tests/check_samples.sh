#!/bin/sh
# Makes the samples again and compares them, and holds ./box items, ./box line and ./box replay to the outputs that stand beside them.
set -u
top=$(CDPATH='' cd -- "$(dirname -- "$0")/.." && pwd)
scratch=$top/target/check-samples
passed=0 failed=0

check() { # NAME COMMAND ..: passes if COMMAND exits with 0
    what=$1
    shift
    if "$@"; then
        passed=$((passed + 1))
    else
        failed=$((failed + 1))
        echo "FAILED: $what"
    fi
}

prints() { # EXPECTED COMMAND: with standard input as it is
    "$top/box" "$2" >"$scratch/printed" && cmp "$1" "$scratch/printed"
}

# Each write to such a pipe is a packet, and a read gives one packet: the program gets byte after byte, however slow
# it is.
byte_by_byte='
import os, subprocess, sys
out, into = os.pipe2(os.O_DIRECT | os.O_CLOEXEC)
program = subprocess.Popen(sys.argv[2:], stdin=out)
os.close(out)
for byte in open(sys.argv[1], "rb").read():
    os.write(into, bytes([byte]))
os.close(into)
sys.exit(program.wait())'

prints_byte_by_byte() { # INPUT EXPECTED COMMAND
    python3 -c "$byte_by_byte" "$1" "$top/box" "$3" >"$scratch/printed" && cmp "$2" "$scratch/printed"
}

model_prints() { # EXPECTED: the independent program prints it for the script on standard input
    python3 "$top/tests/independent/replay_script.py" >"$scratch/printed" && cmp "$1" "$scratch/printed"
}

prints_elsewhere() { # EXPECTED COMMAND: the current directory must not matter
    (cd "$scratch" && prints "$1" "$2")
}

lists_commands() { # WORD ..: status 2, nothing on standard output, the commands on standard error
    "$top/box" "$@" </dev/null >"$scratch/printed" 2>"$scratch/usage"
    [ $? -eq 2 ] && [ ! -s "$scratch/printed" ] && grep -q 'line < input' "$scratch/usage"
}

rm -rf "$scratch"
mkdir -p "$scratch"
printf 'item bytes kind refusal place\nstop 1\n' >"$scratch/stopped"
printf '12345678901234567\n' >"$scratch/boundary-of-17"

check 'samples/make.py runs' python3 "$top/samples/make.py" "$scratch"
for name in short last-spring; do
    check "$name.input made again" cmp "$top/samples/$name.input" "$scratch/$name.input"
    check "$name.items made again" cmp "$top/samples/$name.items" "$scratch/$name.items"
done
short=$top/samples/short
for command in items line; do
    for name in short last-spring; do
        check "$command: $name from a file" prints "$top/samples/$name.items" "$command" <"$top/samples/$name.input"
    done
    check "$command: short byte by byte" prints_byte_by_byte "$short.input" "$short.items" "$command"
    check "$command: short from another directory" prints_elsewhere "$short.items" "$command" <"$short.input"
    check "$command: an empty input" prints "$scratch/stopped" "$command" </dev/null
    check "$command: a boundary of 17 bytes" prints "$scratch/stopped" "$command" <"$scratch/boundary-of-17"
done
check 'replay.out by the independent program' model_prints "$top/samples/replay.out" <"$top/samples/replay.txt"
check 'replay from a file' prints "$top/samples/replay.out" replay <"$top/samples/replay.txt"
check 'replay byte by byte' prints_byte_by_byte "$top/samples/replay.txt" "$top/samples/replay.out" replay
for conduct in new old; do
    { echo "conduct $conduct"; cat "$top/samples/redundant.txt"; } >"$scratch/redundant.txt"
    check "redundant.$conduct.out by the independent program" model_prints "$top/samples/redundant.$conduct.out" <"$scratch/redundant.txt"
    check "redundant, conduct $conduct" prints "$top/samples/redundant.$conduct.out" replay <"$scratch/redundant.txt"
done
check 'redundant, no conduct said' prints "$top/samples/redundant.new.out" replay <"$top/samples/redundant.txt"
for resends in 1 3; do
    { echo "resends $resends"; cat "$top/samples/satellite.txt"; } >"$scratch/satellite.txt"
    check "satellite.$resends.out by the independent program" model_prints "$top/samples/satellite.$resends.out" <"$scratch/satellite.txt"
    check "satellite, resends $resends" prints "$top/samples/satellite.$resends.out" replay <"$scratch/satellite.txt"
done
check 'satellite, no resends said' prints "$top/samples/satellite.1.out" replay <"$top/samples/satellite.txt"
check 'together.out by the independent program' model_prints "$top/samples/together.out" <"$top/samples/together.txt"
check 'together' prints "$top/samples/together.out" replay <"$top/samples/together.txt"
check 'an unknown command' lists_commands mend
check 'no command' lists_commands
check 'a word too many' lists_commands line '##'

echo "$passed passed, $failed failed"
[ "$failed" -eq 0 ]
