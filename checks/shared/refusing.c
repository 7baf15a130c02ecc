/* Loaded before the C library: counts what the program of the name in PROGRAM asks of malloc and realloc, and refuses the request whose
   number REFUSED says. At its end it writes how many there were to the file that COUNTED names. Other programs, as the script that
   valgrind is started by, are left alone. */
#define _GNU_SOURCE
#include <dlfcn.h>
#include <errno.h>
#include <fcntl.h>
#include <stdio.h>
#include <stdlib.h>
#include <string.h>
#include <unistd.h>

static void *(*real_malloc)(size_t);
static void *(*real_realloc)(void *, size_t);
static long counted, refused;

static int is_refused(void) { return ++counted == refused; }

static int is_meant(void) {
    const char *name = getenv("PROGRAM");
    return name && strcmp(name, program_invocation_short_name) == 0;
}

__attribute__((constructor)) static void begin(void) {
    const char *number = getenv("REFUSED");
    refused = number && is_meant() ? atol(number) : 0;
    counted = 0;
}

__attribute__((destructor)) static void end(void) {
    char text[32];
    const char *name = getenv("COUNTED");
    int file = name && is_meant() ? open(name, O_WRONLY | O_CREAT | O_TRUNC, 0600) : -1;
    if (file >= 0) {
        int length = snprintf(text, sizeof text, "%ld", counted);
        if (write(file, text, length) != length) _exit(99);
        close(file);
    }
}

void *malloc(size_t size) {
    if (!real_malloc) real_malloc = (void *(*)(size_t))dlsym(RTLD_NEXT, "malloc");
    return is_refused() ? NULL : real_malloc(size);
}

void *realloc(void *old, size_t size) {
    if (!real_realloc) real_realloc = (void *(*)(void *, size_t))dlsym(RTLD_NEXT, "realloc");
    return is_refused() ? NULL : real_realloc(old, size);
}
