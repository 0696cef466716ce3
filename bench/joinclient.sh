#!/usr/bin/env bash
# Times an exchange of the crate ns_joinclient over memory beside the same in plain Rust (joinclient.rs, rustc -O): the response whole
# and one byte a read, behind a head of 40 bytes, one with a value of 4,000 bytes, and one of 32 headers. Each time is the least of 900
# measurements, in nanoseconds. The allocations are those of an exchange and of its stream, the mean of all.
set -euo pipefail
here=$(cd "$(dirname "$0")" && pwd)
work=$(mktemp -d)
trap 'rm -rf "$work"' EXIT
rustc --edition 2021 -O -o "$work/plain" "$here/joinclient.rs"
cat > "$work/count.c" <<'END'
#define _GNU_SOURCE
#include <dlfcn.h>
#include <stdio.h>
#include <stdlib.h>
static unsigned long calls;
void *malloc(size_t n) { static void *(*f)(size_t); if (!f) f = dlsym(RTLD_NEXT, "malloc"); calls++; return f(n); }
void *realloc(void *p, size_t n) { static void *(*f)(void *, size_t); if (!f) f = dlsym(RTLD_NEXT, "realloc"); calls++; return f(p, n); }
void *aligned_alloc(size_t a, size_t n) { static void *(*f)(size_t, size_t); if (!f) f = dlsym(RTLD_NEXT, "aligned_alloc"); calls++; return f(a, n); }
int posix_memalign(void **p, size_t a, size_t n) { static int (*f)(void **, size_t, size_t); if (!f) f = dlsym(RTLD_NEXT, "posix_memalign"); calls++; return f(p, a, n); }
__attribute__((destructor)) static void told(void) { fprintf(stderr, "allocations %.1f\n", calls / 1800.0); }
// A program that may start threads ends by _exit, which calls no destructor.
void _exit(int status) { void (*f)(int) = dlsym(RTLD_NEXT, "_exit"); told(); f(status); __builtin_unreachable(); }
END
cc -O2 -shared -fPIC -o "$work/count.so" "$work/count.c" -ldl
program="$work/bench_times"
"$here/times.sh" "$program"
for _ in 1 2 3; do
    "$program" joinclient > "$work/values" 2>> "$work/proved"
    "$work/plain" > "$work/plain_values" 2>> "$work/rust"
done
cmp "$work/values" "$work/plain_values"
LD_PRELOAD="$work/count.so" "$program" joinclient 2>&1 > "$work/values" | grep allocations >> "$work/proved"
LD_PRELOAD="$work/count.so" "$work/plain" 2>&1 > "$work/values" | grep allocations >> "$work/rust"
least() { sort -k1,1 -k2,2n "$1" | awk '!seen[$1]++ {print $1, $2}' | sort -k1,1; }
join -o 0,1.2,2.2 <(least "$work/proved") <(least "$work/rust") | awk '
    BEGIN { printf "%-22s %10s %10s %8s\n", "", "proved", "plain", "ratio" }
    { printf "%-22s %10s %10s %8.2f\n", $1, $2, $3, $2 / $3 }'
