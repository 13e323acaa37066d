/* Loaded before a program (LD_PRELOAD), this lets calls of the C library fail: allocations are refused, reads of standard input and of sockets
   fail, and so do writes of standard output and of sockets; or they are interrupted, or move one byte at a time. What to do stands in the
   environment, where CALLS is the number of a call, from 1, or `N-` for call N and all later ones:

       FAULT_ALLOC=CALLS, FAULT_READ=CALLS, FAULT_WRITE=CALLS    these fail
       FAULT_INTERRUPT=1                                         every other read and write is interrupted
       FAULT_SHORT=1                                             reads and writes move one byte
       FAULT_COUNTS=FILE                                         at its end the program writes there how many of the three it called,
                                                                 and the size of the largest allocation, in bytes

   gcc -shared -fPIC -O1 -o faults.so faults.c (for the GNU C library on Linux). */

#include <errno.h>
#include <fcntl.h>
#include <stdio.h>
#include <stdlib.h>
#include <sys/syscall.h>
#include <sys/types.h>
#include <unistd.h>

extern void *__libc_malloc(size_t);
extern void *__libc_realloc(void *, size_t);

/* The calls of a kind: how many there were, and which fail. */
struct calls {
    unsigned long count, first, last;
};

static struct calls allocations, reads, writes;
static unsigned long turns;
static int interrupts, is_short;
static size_t largest;

static struct calls failing(const char *name)
{
    struct calls calls = {0, 0, 0};
    const char *text = getenv(name);
    char *rest;
    if (text) {
        calls.first = strtoul(text, &rest, 10);
        calls.last = *rest ? (unsigned long)-1 : calls.first;
    }
    return calls;
}

__attribute__((constructor)) static void begin(void)
{
    allocations = failing("FAULT_ALLOC");
    reads = failing("FAULT_READ");
    writes = failing("FAULT_WRITE");
    interrupts = getenv("FAULT_INTERRUPT") != NULL;
    is_short = getenv("FAULT_SHORT") != NULL;
}

__attribute__((destructor)) static void end(void)
{
    const char *path = getenv("FAULT_COUNTS");
    char text[100];
    if (!path)
        return;
    int file = open(path, O_WRONLY | O_CREAT | O_TRUNC, 0600);
    int size = snprintf(text, sizeof text, "%lu %lu %lu %zu\n", allocations.count, reads.count, writes.count, largest);
    if (syscall(SYS_write, file, text, size) != size)
        _exit(99);
}

static int fails(struct calls *calls)
{
    calls->count++;
    return calls->first && calls->first <= calls->count && calls->count <= calls->last;
}

static int refused(size_t size)
{
    if (largest < size)
        largest = size;
    return fails(&allocations);
}

void *malloc(size_t size)
{
    if (refused(size)) {
        errno = ENOMEM;
        return NULL;
    }
    return __libc_malloc(size);
}

void *realloc(void *old, size_t size)
{
    if (refused(size)) {
        errno = ENOMEM;
        return NULL;
    }
    return __libc_realloc(old, size);
}

/* How many bytes this call is to move, or -1 with errno. */
static ssize_t moved(struct calls *calls, size_t size)
{
    if (interrupts && ++turns % 2) {
        errno = EINTR;
        return -1;
    }
    if (fails(calls)) {
        errno = EIO;
        return -1;
    }
    return is_short && size > 1 ? 1 : (ssize_t)size;
}

ssize_t read(int file, void *buffer, size_t size)
{
    ssize_t most = file == 0 ? moved(&reads, size) : (ssize_t)size;
    return most < 0 ? most : syscall(SYS_read, file, buffer, most);
}

ssize_t write(int file, const void *buffer, size_t size)
{
    ssize_t most = file == 1 ? moved(&writes, size) : (ssize_t)size;
    return most < 0 ? most : syscall(SYS_write, file, buffer, most);
}

ssize_t recv(int socket, void *buffer, size_t size, int flags)
{
    ssize_t most = moved(&reads, size);
    return most < 0 ? most : syscall(SYS_recvfrom, socket, buffer, most, flags, NULL, NULL);
}

ssize_t send(int socket, const void *buffer, size_t size, int flags)
{
    ssize_t most = moved(&writes, size);
    return most < 0 ? most : syscall(SYS_sendto, socket, buffer, most, flags, NULL, NULL);
}
