#!/usr/bin/env bash
# Lets each allocation fail in turn, first in the tests of crates/memorytests and then in the main job, until a run has none left that
# could fail. The tests take a whole answer, or want of memory with every table as the contracts say; the main job ends with status 1,
# tells of memory, and has printed nothing wrong till then; where the site book finds no room, that is its last line. Nothing is proved
# here: `rt try` builds and runs.
set -eu
cd "$(dirname "$0")/.."
out=$(mktemp)
err=$(mktemp)
trap 'rm -f "$out" "$err"' EXIT

stopped() {
    cat "$out" "$err"
    echo "fail-allocations: $1"
    exit 1
}

n=1
while true; do
    (cd crates/memorytests && rt try --test --fail-alloc "$n") >"$out" 2>"$err" || stopped "a test failed at allocation $n"
    grep -hq '^test result: ok' "$out" "$err" || stopped "no test ran at allocation $n"
    grep -hq 'want of memory' "$out" "$err" || break
    echo "tests, allocation $n failing: $(cat "$out" "$err" | grep -c 'want of memory') tests have want of memory, and pass"
    n=$((n + 1))
done
echo "tests: allocations 1 to $((n - 1)) failed in turn, and with none failing all is whole"

# An allocation that nothing hangs on would go by unseen, so three whole runs end it.
n=1
whole=0
while [ "$whole" -lt 3 ]; do
    status=0
    (cd crates/moratennis && rt try --fail-alloc "$n") >"$out" 2>"$err" || status=$?
    word=memory
    if [ "$(tail -n 1 "$out")" = 'not read: there is not enough memory' ]; then
        sed -i '$d' "$out"
        word='the book was not read'
    fi
    head -c "$(stat -c %s "$out")" crates/moratennis/stdout | cmp -s - "$out" || stopped "the main job printed something else at allocation $n"
    if [ "$status" = 0 ] && cmp -s "$out" crates/moratennis/stdout; then
        whole=$((whole + 1))
    elif [ "$status" = 1 ] && grep -q "^Error: .*$word" "$err"; then
        whole=0
        echo "main job, allocation $n failing: status 1, $(grep -m 1 '^Error: ' "$err")"
    else
        stopped "the main job gave status $status and no word of memory at allocation $n"
    fi
    n=$((n + 1))
done
echo "main job: allocations 1 to $((n - 4)) failed in turn, and with none failing all is whole"
