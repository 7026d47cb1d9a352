// Stands before the C library's allocator (LD_PRELOAD), and refuses a program the allocation that REFUSED numbers, counted from 1 over
// malloc and realloc; with `N..` also all that follow. Where the program ends, the count of all goes into the file ALLOCATIONS.
#define _GNU_SOURCE
#include <errno.h>
#include <fcntl.h>
#include <stdatomic.h>
#include <stddef.h>
#include <stdio.h>
#include <stdlib.h>
#include <string.h>
#include <sys/syscall.h>
#include <unistd.h>

void *__libc_malloc(size_t size);
void *__libc_realloc(void *block, size_t size);

static atomic_long count;
static long refused;
static int and_all_that_follow;
static const char *told;

__attribute__((constructor)) static void begin(void) {
    const char *number = getenv("REFUSED");
    told = getenv("ALLOCATIONS");
    refused = number ? atol(number) : 0;
    and_all_that_follow = number && strstr(number, "..");
    count = 0;
}

__attribute__((destructor)) static void tell(void) {
    char text[32];
    int length = snprintf(text, sizeof text, "%ld\n", (long)count);
    int file = told ? open(told, O_WRONLY | O_CREAT | O_TRUNC, 0666) : -1;
    if (file >= 0) {
        (void)!write(file, text, (size_t)length);
        close(file);
    }
}

static int is_refused(void) {
    long number = ++count;
    if (!refused || (number != refused && !(and_all_that_follow && number > refused))) return 0;
    errno = ENOMEM;
    return 1;
}

void *malloc(size_t size) { return is_refused() ? NULL : __libc_malloc(size); }

void *realloc(void *block, size_t size) { return is_refused() ? NULL : __libc_realloc(block, size); }

void _exit(int status) {
    tell();
    for (;;) syscall(SYS_exit_group, status);
}
