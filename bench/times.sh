#!/usr/bin/env bash
# Builds the program by which aes.sh, joinclient.sh and server.sh time parts of the server.
#   times.sh PROGRAM     builds it, and copies it to the file PROGRAM
# Its source is bench/times, which no run of the gate proves. `rt ci` refuses a file .rt or .antt that belongs to no crate, so that each
# has .txt behind its name. The program is proved and built by `rt ci` in a copy of the crates that it stands on, in which it is the crate
# bench_times, with the module `put` of worked_frames. Where the kit keeps what a run of the gate proved of the same text on this machine,
# only the program is proved there. The copy stays in the system's temporary folder.
set -euo pipefail
top=$(cd "$(dirname "$0")/.." && pwd)
copy=${TMPDIR:-/tmp}/bench_times
crate=$copy/crates/bench_times
libraries="ns_types ns_aes_cmac ns_roster ns_calls ns_exchange ns_joinclient ns_shard ns_tally ns_outside ns_server ns_device hex"
mkdir -p "$copy"
exec 9> "$copy.lock"
flock 9
rm -rf "$copy/crates"
mkdir -p "$crate"
# the lines of crates.txt that the program needs
awk -F: -v wanted="$libraries" '
    /^#/ || NF < 2 { next }
    { line[$1] = $0; names[++count] = $1; below[$1] = $2 }
    END {
        todo = wanted
        while (split(todo, next_ones, " ") > 0) {
            todo = ""
            for (i in next_ones) {
                name = next_ones[i]
                if (name in line && !(name in has)) { has[name]; todo = todo " " below[name] }
            }
        }
        for (i = 1; i <= count; i++) if (names[i] in has) print line[names[i]]
        print "bench_times: " wanted
    }' "$top/crates.txt" > "$copy/crates.txt"
cp "$top/HANDLES" "$copy"
while IFS=: read -r name _; do
    [ "$name" = bench_times ] || tar -C "$top" -c --exclude=out "crates/$name" | tar -C "$copy" -x
done < "$copy/crates.txt"
cp -r "$top"/bench/times/* "$crate"
cp "$top/crates/worked_frames/src/put.rt" "$crate/src"
find "$crate" -name '*.txt' -exec sh -c 'for file; do mv "$file" "${file%.txt}"; done' sh {} +
(cd "$copy" && rt ci > build 2>&1) || { cat "$copy/build"; exit 1; }
cp "$crate/out/bench_times" "$1"
