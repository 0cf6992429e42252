#!/usr/bin/env bash
# Runs the line side and the C tests as clang builds them with its address and undefined behaviour sanitizers. The archive
# itself has none. Where clang or its runtime is missing, or the machine is not x86-64, this says so and counts nothing.
# Needs the archive and the program `items`.
set -u
cd "$(dirname "$0")/.." || exit 1
scratch=target/sanitized
archive=crates/line/out/libline.a
passed=0 failed=0
export ASAN_OPTIONS=detect_leaks=0 # nothing here allocates, and looking for leaks needs a right that not every machine gives

fail() { # WHAT
    failed=$((failed + 1))
    echo "FAILED: $1"
}

# Builds a program from a text and runs it.
probe() { # NAME TEXT
    printf '%s\n' "$2" >"$scratch/$1.c"
    tools/x86 sanitized "$scratch/$1" "$scratch/$1.c" && tools/x86 run "$scratch/$1"
}

build() { # NAME SOURCE.c
    if tools/x86 sanitized "$scratch/$1" "$2" "$archive"; then passed=$((passed + 1)); else fail "$2 builds"; fi
}

# Runs a program whose last line is 'N passed, M failed' and adds its counts; a status that its count does not explain is a failure too.
counted() { # COMMAND ..
    local status last
    "$@" 2>&1 | tee "$scratch/log"
    status=${PIPESTATUS[0]}
    last=$(tail -n 1 "$scratch/log")
    if [[ $last =~ ^([0-9]+)\ passed,\ ([0-9]+)\ failed$ ]]; then
        passed=$((passed + BASH_REMATCH[1]))
        failed=$((failed + BASH_REMATCH[2]))
        if [ "$status" -eq 0 ] || [ "${BASH_REMATCH[2]}" -gt 0 ]; then return; fi
    fi
    fail "$* ended with status $status"
}

rm -rf "$scratch"
mkdir -p "$scratch"
if ! probe sound 'int main(void) { return 0; }' >"$scratch/log" 2>&1; then
    echo "no clang here with a runtime for its sanitizers: nothing was tried"
    echo "0 passed, 0 failed"
    exit 0
fi
for fault in 'static int list[4]; int main(int argc, char **argv) { (void)argv; return list[argc + 3]; }' \
    'int main(int argc, char **argv) { (void)argv; return argc + 2147483647 == 0; }'; do
    if probe unsound "$fault" >"$scratch/log" 2>&1; then fail "the sanitizers pass: $fault"; else passed=$((passed + 1)); fi
done
build gather_test tests/c/gather_test.c
build read_test tests/c/read_test.c
build line_side host/line_side.c
build line_side_interrupted tests/c/line_side_interrupted.c
counted tools/x86 run "$scratch/gather_test"
counted tools/x86 run "$scratch/read_test"
counted python3 tests/compare_host.py --cases 30 "$scratch/line_side" "$scratch/line_side_interrupted"

echo "$passed passed, $failed failed"
[ "$failed" -eq 0 ]
