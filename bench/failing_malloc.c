/* Lets one allocation of a program fail: the one whose number the variable FAIL_AT names, counted over all threads. The
   program's last allocation is told on standard error when it ends, where COUNT is set. */
#define _GNU_SOURCE
#include <dlfcn.h>
#include <stdatomic.h>
#include <stdio.h>
#include <stdlib.h>
#include <sys/syscall.h>
#include <unistd.h>

static atomic_ulong made;
static unsigned long fail_at;
static void *(*next_malloc)(size_t);

static void begin(void) {
    const char *at = getenv("FAIL_AT");
    fail_at = at ? strtoul(at, NULL, 10) : 0;
    next_malloc = (void *(*)(size_t))dlsym(RTLD_NEXT, "malloc");
}

void *malloc(size_t size) {
    if (!next_malloc) begin();
    if (atomic_fetch_add(&made, 1) + 1 == fail_at) return NULL;
    return next_malloc(size);
}

void _exit(int status) {
    if (getenv("COUNT")) dprintf(2, "%lu\n", (unsigned long)atomic_load(&made));
    syscall(SYS_exit_group, status);
    for (;;) {
    }
}
