/* Refuses one request for memory of the process that it is loaded into: the one of the number in REFUSE, counted from 1; none for 0. With REFUSE_ALL it
   refuses all from that one on. At the end it writes how many there were to the file of the number in REFUSE_COUNT, where that is set. */
#define _GNU_SOURCE
#include <dlfcn.h>
#include <errno.h>
#include <stdio.h>
#include <stdlib.h>
#include <unistd.h>

static unsigned long asked, refused_at;
static int all, is_ready;
static void *(*real_malloc)(size_t);
static void *(*real_realloc)(void *, size_t);

static void make_ready(void) {
    if (is_ready)
        return;
    const char *at = getenv("REFUSE");
    real_malloc = (void *(*)(size_t))dlsym(RTLD_NEXT, "malloc");
    real_realloc = (void *(*)(void *, size_t))dlsym(RTLD_NEXT, "realloc");
    refused_at = at ? strtoul(at, 0, 10) : 0;
    all = getenv("REFUSE_ALL") != 0;
    is_ready = 1;
}

static int is_refused(void) {
    asked++;
    return refused_at && (asked == refused_at || (all && asked > refused_at));
}

void *malloc(size_t size) {
    make_ready();
    if (is_refused()) {
        errno = ENOMEM;
        return 0;
    }
    return real_malloc(size);
}

void *realloc(void *block, size_t size) {
    make_ready();
    if (is_refused()) {
        errno = ENOMEM;
        return 0;
    }
    return real_realloc(block, size);
}

__attribute__((destructor)) static void tell(void) {
    const char *to = getenv("REFUSE_COUNT");
    if (to)
        dprintf(atoi(to), "%lu\n", asked);
}
