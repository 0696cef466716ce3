/* Has receives of datagrams fail, to see what a server does then.

       cc -shared -fPIC -O2 -o failing_receive.so failing_receive.c
       FAILING=switch LD_PRELOAD=./failing_receive.so PROGRAM ..

   While the first of the two numbers in the file that FAILING names, in the machine's own 8 bytes each, is not 0, each call of recvfrom
   fails with it as the error; the second number counts these calls. */
#define _GNU_SOURCE
#include <dlfcn.h>
#include <errno.h>
#include <fcntl.h>
#include <stdatomic.h>
#include <stddef.h>
#include <stdlib.h>
#include <sys/mman.h>
#include <sys/socket.h>
#include <unistd.h>

typedef ssize_t receive(int, void *, size_t, int, struct sockaddr *, socklen_t *);

static atomic_ulong own[2];
static atomic_ulong *numbers = own;
static receive *whole;

__attribute__((constructor)) static void begin(void) {
    const char *name = getenv("FAILING");
    int file = name ? open(name, O_RDWR) : -1;
    whole = (receive *)dlsym(RTLD_NEXT, "recvfrom");
    if (file < 0) return;
    void *shared = mmap(NULL, sizeof own, PROT_READ | PROT_WRITE, MAP_SHARED, file, 0);
    if (shared != MAP_FAILED) numbers = shared;
    close(file);
}

ssize_t recvfrom(int sock, void *buffer, size_t size, int flags, struct sockaddr *peer, socklen_t *length) {
    unsigned long error = atomic_load(numbers);
    if (!error) return whole(sock, buffer, size, flags, peer, length);
    atomic_fetch_add(numbers + 1, 1);
    errno = (int)error;
    return -1;
}
