# Read by the scripts here that time the whole program: `program` is its path, `folder` is for their files and goes at their
# end, `tell_machine` prints what they run on, `least COMMAND..` is the shortest time of a command in seconds by the clock, of as
# many runs as RUNS says (three), whatever program it is of, `least_used COMMAND..` is the least processor time of as many runs,
# which other work on the machine changes less, `beside SECONDS BASE` is a cell of a table, the seconds and in brackets those beyond
# BASE, and `times_own OWN OTHER` is one too: the seconds of another program, and in brackets OWN as a multiple of them.
program=${JPQ:-$PWD/crates/jpq/out/jpq}
[ -x "$program" ] || { echo "build the program first: (cd crates/jpq && rt run -- /dev/null < /dev/null)"; exit 1; }
folder=$(mktemp -d)
trap 'rm -rf "$folder"' EXIT
has() { command -v "$1" > /dev/null; }
tell_machine() {
    echo "machine: $(nproc) processors, $(sed -n 's/^model name[^:]*: //p' /proc/cpuinfo | head -1), $(uname -sr)"
}
least() {
    local run start end
    for ((run = 0; run < ${RUNS:-3}; run += 1)); do
        start=$(date +%s%N)
        "$@" > /dev/null 2>&1 || true
        end=$(date +%s%N)
        echo $((end - start))
    done | sort -n | awk 'NR == 1 { printf "%.3f\n", $1 / 1e9 }'
}
least_used() {
    local run TIMEFORMAT='%U %S'
    for ((run = 0; run < ${RUNS:-3}; run += 1)); do
        { time "$@" > /dev/null 2> /dev/null || true; } 2>&1
    done | awk '{ print $1 + $2 }' | sort -n | awk 'NR == 1 { printf "%.3f\n", $1 }'
}
times_own() { awk -v own="$1" -v other="$2" 'BEGIN { printf "%s (%.2f)", other, own / other }'; }
beside() { awk -v seconds="$1" -v base="$2" 'BEGIN { printf "%.2f (%.2f)", seconds, seconds - base }'; }
tell_collection() { echo "$(awk -v bytes="$(stat -c %s "$1")" 'BEGIN { printf "%.1f", bytes / 1e6 }') MB, $(wc -l < "$1") lines"; }
