#!/bin/sh
# Builds the driver, prints the ratios ours/original, for records and then for `rate_s` (exit status 1 if one is above its target; with
# `print`, 0; with `rates`, those of `rate_s` only), then the instructions of one decode as callgrind counts them, with those of our
# call for the most units, and those of one call of `rate_s`: two runs of different length, so that starting up cancels.
# Needs target/staticlib/libtikuwero.a, which `tools/staticlib.sh` writes.
set -eu
cd "$(dirname "$0")"
cargo build --release --quiet
bench=target/release/bench
status=0
"$bench" "$@" || status=$?

instructions() {
    valgrind --tool=callgrind --callgrind-out-file=/dev/null "$bench" "$@" 2>&1 | sed -n 's/.*Collected : //p'
}
per_count() {
    few=$(instructions "$@" 5)
    many=$(instructions "$@" 25)
    echo $(((many - few) / 20))
}
echo
echo "| Record | Instructions of a decode, ours | Original | Ratio | Most units | By our decode |"
echo "|---|---|---|---|---|---|"
for record in typical maximal heaviest; do
    ours=$(per_count ours "$record")
    original=$(per_count original "$record")
    most_units=$(per_count most_units "$record")
    echo "$record $ours $original $most_units" |
        awk '{ printf "| %s | %d | %d | %.2f | %d | %.2f |\n", $1, $2, $3, $2 / $3, $4, $4 / $2 }'
done

# Each count is a call for each list of a set; the driver prints how many calls it made.
per_rate_call() {
    echo $(($(per_count rate "$@") / $("$bench" rate "$@" 1)))
}
echo
echo "| Frames | Order | Instructions of a call of rate_s, ours | Original | Ratio |"
echo "|---|---|---|---|---|"
for frames in 2 8 16 32 64; do
    for order in ascending shuffled; do
        ours=$(per_rate_call ours "$order" "$frames")
        original=$(per_rate_call original "$order" "$frames")
        echo "$frames $order $ours $original" | awk '{ printf "| %s | %s | %d | %d | %.2f |\n", $1, $2, $3, $4, $3 / $4 }'
    done
done
exit "$status"
