/* Refuses growths of a process's heap, to see what it does without memory.

       cc -shared -fPIC -O2 -o refuse_growth.so refuse_growth.c
       REFUSED=17 LD_PRELOAD=./refuse_growth.so PROGRAM ..

   REFUSED=N refuses the N-th call of malloc, calloc or realloc, from 1, whoever makes it, the C library's own ones among them; REFUSED=N+
   refuses it and all behind it; without it none is refused. The file that GROWTHS names has at any time how many calls there were, in the
   machine's own 8 bytes. Where another program writes a number that is not 0 in the 8 bytes behind them, all are refused from then on. In
   the third 8 bytes is how many were refused as the program itself asked for.

   A program may have growths of its own refused, each alone (ns_device, `growths`). It says which by asking for sizes that no machine has:
   2^50 + N refuses the N-th call from then on, 2^51 stops counting, 2^51 + 1 counts on, and 2^52 is given, as a small block, if a call was
   refused since. The others of these are refused, and none of them counts as a call. */
#include <errno.h>
#include <fcntl.h>
#include <stdatomic.h>
#include <stddef.h>
#include <stdlib.h>
#include <sys/mman.h>
#include <unistd.h>

extern void *__libc_malloc(size_t), *__libc_calloc(size_t, size_t), *__libc_realloc(void *, size_t);

enum { CALLS, ALL, ASKED_FOR, COUNTS };

static const size_t REFUSE = 1UL << 50, PAUSE = 1UL << 51, RESUME = PAUSE + 1, WAS_REFUSED = 1UL << 52;

static unsigned long first, last;
static atomic_ulong own[COUNTS];
static atomic_ulong *calls = own;

/* What the program asked for: the call to be refused, how many it counted, whether it counts, and whether one was refused. */
static atomic_ulong wanted, counted, counts, came;

static void count_in(const char *name) {
    int file = open(name, O_RDWR | O_CREAT | O_TRUNC, 0600);
    if (file < 0 || ftruncate(file, sizeof own)) return;
    void *shared = mmap(NULL, sizeof own, PROT_READ | PROT_WRITE, MAP_SHARED, file, 0);
    if (shared != MAP_FAILED) calls = shared;
    close(file);
}

__attribute__((constructor)) static void begin(void) {
    const char *refused = getenv("REFUSED"), *name = getenv("GROWTHS");
    char *end;
    if (name) count_in(name);
    if (!refused) return;
    for (int at = 0; at < COUNTS; at++) atomic_store(calls + at, 0);
    first = strtoul(refused, &end, 10);
    last = *end == '+' ? -1UL : first;
}

/* Takes what the program says by a size that no machine has. */
static void *told(size_t size) {
    if (size == WAS_REFUSED && atomic_load(&came)) return __libc_malloc(1);
    if (size >= REFUSE && size < PAUSE) {
        atomic_store(&wanted, size - REFUSE);
        atomic_store(&counted, 0);
        atomic_store(&came, 0);
    }
    if (size <= RESUME) atomic_store(&counts, size != PAUSE);
    errno = ENOMEM;
    return NULL;
}

/* Whether this is the call that the program wants refused. */
static int is_wanted(void) {
    if (!atomic_load(&counts) || atomic_fetch_add(&counted, 1) + 1 != atomic_load(&wanted)) return 0;
    atomic_store(&came, 1);
    atomic_fetch_add(calls + ASKED_FOR, 1);
    return 1;
}

static int is_refused(void) {
    unsigned long number = atomic_fetch_add(calls + CALLS, 1) + 1;
    if (!is_wanted() && !atomic_load(calls + ALL) && (!first || number < first || number > last)) return 0;
    errno = ENOMEM;
    return 1;
}

void *malloc(size_t size) { return size >= REFUSE ? told(size) : is_refused() ? NULL : __libc_malloc(size); }
void *calloc(size_t count, size_t size) { return is_refused() ? NULL : __libc_calloc(count, size); }
void *realloc(void *block, size_t size) { return is_refused() ? NULL : __libc_realloc(block, size); }
