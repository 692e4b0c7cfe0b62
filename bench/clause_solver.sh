#!/usr/bin/env bash
# Solves pigeonhole formulas and random formulas of three literals a clause with the proved solver, and
# with minisat and cadical where they are installed: the answer, conflicts, user seconds and conflicts a
# second of each, and by how much the proved solver's time per conflict is longer. "cadical-all" is
# cadical that forgets no clause and simplifies none, as the proved solver does neither.
# Each run ends after 60,000 conflicts. minisat has no such limit: it ends after 20 seconds. So the whole
# takes two or three minutes, after the program was proved, which may take some minutes more.
set -euo pipefail
. "$(dirname "$0")/copied.sh"
copy_program clause_solver "clause_solver lemma_checker" lemma_checker watch_lists clause_solver
run_program clause_solver 2 > "$work/first.txt"
program="$(built_program clause_solver)"

# more pigeons than holes, each pigeon in a hole and no two in the same one
pigeons() {
    awk -v h="$1" 'BEGIN {
        printf "p cnf %d %d\n", h * (h + 1), (h + 1) + h * h * (h + 1) / 2
        for (p = 0; p <= h; p++) { for (k = 1; k <= h; k++) printf "%d ", p * h + k; print 0 }
        for (k = 1; k <= h; k++) for (p = 0; p <= h; p++) for (q = 0; q < p; q++) print -(p * h + k), -(q * h + k), 0
    }'
}

# clauses of three different variables, as many as is hardest
random() {
    awk -v n="$1" -v seed="$2" 'BEGIN {
        srand(seed); m = int(n * 4.26)
        printf "p cnf %d %d\n", n, m
        for (i = 0; i < m; i++) {
            do { a = 1 + int(rand() * n); b = 1 + int(rand() * n); c = 1 + int(rand() * n) } while (a == b || b == c || a == c)
            print (rand() < 0.5 ? a : -a), (rand() < 0.5 ? b : -b), (rand() < 0.5 ? c : -c), 0
        }
    }'
}

limit=60000

# runs a command with its output in $work/output.txt, and prints its user seconds
timed() { ( TIMEFORMAT=%U; time "$@" > "$work/output.txt" 2> /dev/null || true ) 2>&1; }

# prints a line, with how many times longer $per seconds a conflict are
report() { awk -v name="$1" -v who="$2" -v what="$3" -v n="$4" -v s="$5" -v per="$per" 'BEGIN {
    printf "%-8s %-12s %-14s %8s conflicts %7.2f s %8s a second", name, who, what, n, s, (s > 0 && n > 0 ? int(n / s) : "-")
    if (per > 0 && s > 0 && n > 0) printf "  %5.1f times", per * n / s
    print "" }'; }

with_cadical() {
    name="$1" who="$2"
    shift 2
    seconds="$(timed cadical -c "$limit" "$@")"
    what="$(awk '/^s / { print tolower($2) }' "$work/output.txt")"
    report "$name" "$who" "${what:-spent}" "$(awk '/^c conflicts:/ { print $3 }' "$work/output.txt")" "$seconds"
}

run() {
    name="$1" file="$2" per=0
    seconds="$( ( TIMEFORMAT=%U; time "$program" < "$file" > "$work/output.txt" ) 2>&1 )"
    read -r what lemmas < "$work/output.txt"
    report "$name" proved "$what" "$lemmas" "$seconds"
    per="$(awk -v n="$lemmas" -v s="$seconds" 'BEGIN { print (n > 0 ? s / n : 0) }')"
    if command -v minisat > /dev/null; then
        seconds="$(timed minisat -no-pre -verb=1 -cpu-lim=20 "$file")"
        what="$(tail -n 1 "$work/output.txt" | tr 'A-Z' 'a-z')"
        report "$name" minisat "$what" "$(awk '/^conflicts/ { print $3 }' "$work/output.txt")" "$seconds"
    fi
    if command -v cadical > /dev/null; then
        with_cadical "$name" cadical "$file"
        with_cadical "$name" cadical-all --plain --reduce=0 "$file"
    fi
}

for holes in 7 8 9; do
    pigeons "$holes" > "$work/php$holes.cnf"
    run "php$holes" "$work/php$holes.cnf"
done
for variables in 150 200 250; do
    for seed in 1 2; do
        random "$variables" "$seed" > "$work/r$variables.cnf"
        run "r$variables-$seed" "$work/r$variables.cnf"
    done
done
