/* Refuses one allocation of a program, and counts them: REFUSE is the number of the one, from 1 on, and COUNT names the
   file that gets the number of all at the end. */
#define _GNU_SOURCE
#include <dlfcn.h>
#include <stdio.h>
#include <stdlib.h>

static void *(*next_malloc)(size_t);
static void *(*next_realloc)(void *, size_t);
static unsigned long made, refused;

__attribute__((constructor)) static void begin(void) {
    const char *number = getenv("REFUSE");
    next_malloc = (void *(*)(size_t))dlsym(RTLD_NEXT, "malloc");
    next_realloc = (void *(*)(void *, size_t))dlsym(RTLD_NEXT, "realloc");
    refused = number ? strtoul(number, NULL, 10) : 0;
    made = 0;
}

__attribute__((destructor)) static void end(void) {
    unsigned long count = made;
    const char *name = getenv("COUNT");
    FILE *file = name ? fopen(name, "w") : NULL;
    if (file) {
        fprintf(file, "%lu\n", count);
        fclose(file);
    }
}

static int is_refused(void) { return ++made == refused; }

void *malloc(size_t size) {
    if (!next_malloc)
        return NULL;
    return is_refused() ? NULL : next_malloc(size);
}

void *realloc(void *old, size_t size) {
    if (!next_realloc)
        return NULL;
    return is_refused() ? NULL : next_realloc(old, size);
}
