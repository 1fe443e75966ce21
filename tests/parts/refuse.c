/* Refuses one allocation of a program that this is loaded into: the one whose number, from 1, REFUSED names. If COUNTED is there it
   writes at the end how many allocations there were to standard error. */
#include <stdatomic.h>
#include <stdio.h>
#include <stdlib.h>
#include <sys/syscall.h>
#include <unistd.h>

void *__libc_malloc(size_t size);
void *__libc_realloc(void *old, size_t size);

static atomic_long made;
static long refused;

__attribute__((constructor)) static void begin(void) {
    const char *number = getenv("REFUSED");
    refused = number ? atol(number) : 0;
}

static int is_refused(void) { return atomic_fetch_add(&made, 1) + 1 == refused; }

void *malloc(size_t size) { return is_refused() ? NULL : __libc_malloc(size); }

void *realloc(void *old, size_t size) { return is_refused() ? NULL : __libc_realloc(old, size); }

static int tell(void) {
    char text[32];
    int length = snprintf(text, sizeof text, "%ld\n", atomic_load(&made));
    return !getenv("COUNTED") || write(2, text, length) == length;
}

__attribute__((destructor)) static void end(void) { tell(); }

void _exit(int status) {
    int told = tell();
    for (;;) syscall(SYS_exit_group, told ? status : 1);
}
