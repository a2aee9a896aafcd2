# Read by the scripts here that time single crates. `run_single NAME CRATES LIBRARIES ARGUMENTS..` runs the program of
# bench/NAME over these crates of the repository and these libraries of the kit. It is no crate of this repository, so that the gate does
# not prove it: it is built in a copy, which goes at the end.
run_single() {
    local name=$1 crates=$2 libraries=$3 folder crate file
    shift 3
    folder=$(mktemp -d)
    trap "rm -rf '$folder'" EXIT
    mkdir -p "$folder/crates/$name/src"
    for crate in $crates; do
        cp -a "crates/$crate" "$folder/crates/"
        grep "^$crate:" crates.txt >> "$folder/crates.txt"
    done
    echo "$name: $crates $libraries" >> "$folder/crates.txt"
    cp HANDLES "$folder/"
    for file in "bench/$name"/*.rt.in; do cp "$file" "$folder/crates/$name/src/$(basename "$file" .in)"; done
    (cd "$folder" && git init -q .)
    echo "machine: $(nproc) processors, $(sed -n 's/^model name[^:]*: //p' /proc/cpuinfo | head -1), $(uname -sr)"
    (cd "$folder/crates/$name" && rt run -- "$@") > "$folder/output" 2>&1 || { cat "$folder/output"; return 1; }
    sed -n '/^rt: running/,$p' "$folder/output" | tail -n +2
}
