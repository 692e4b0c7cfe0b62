# For the scripts beside it, which source it: a copy of some crates with a program that uses them, in a folder that is
# removed at the end.
here="$(cd "$(dirname "${BASH_SOURCE[0]}")" && pwd)"
work="$(mktemp -d)"
trap 'rm -rf "$work"' EXIT

# copy_program FOLDER USES CRATE..
# Copies the crates, and the program of bench/FOLDER as the crate FOLDER_bench, which uses USES.
copy_program() {
    local folder="$1" uses="$2" program="$work/crates/$1_bench" crate text
    shift 2
    mkdir -p "$work/crates"
    cp "$here/../HANDLES" "$work/"
    for crate in "$@"; do
        cp -r "$here/../crates/$crate" "$work/crates/$crate"
        grep "^$crate:" "$here/../crates.txt" >> "$work/crates.txt"
    done
    cp -r "$here/$folder" "$program"
    # the gate reads every source file of the repository, so those of the program lie here as texts
    find "$program" -name '*.txt' | while read -r text; do mv "$text" "${text%.txt}"; done
    echo "${folder}_bench: $uses" >> "$work/crates.txt"
}

# run_program FOLDER JOBS: proves, builds and runs the program.
run_program() { (cd "$work/crates/$1_bench" && rt run --jobs "$2" < /dev/null); }

# built_program FOLDER: the file of the program, after it was run.
built_program() { find "$work/crates/$1_bench/out" -maxdepth 1 -type f -perm -u+x -name "$1_bench*" | head -n 1; }
