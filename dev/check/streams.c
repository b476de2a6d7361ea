/* Counts what a program asks of its standard streams, and refuses one read or one write: READ_FAILS and WRITE_FAILS are
   the number of the one, from 1 on. COUNT names the file that gets at the end how many reads there were, how many of
   these came after one that failed or gave nothing, how many writes, and how many of these came after one that failed
   or took nothing. */
#define _GNU_SOURCE
#include <dlfcn.h>
#include <errno.h>
#include <stdio.h>
#include <stdlib.h>
#include <unistd.h>

struct stream {
    unsigned long made, late, refused;
    int is_over;
};

static ssize_t (*next_read)(int, void *, size_t);
static ssize_t (*next_write)(int, const void *, size_t);
static struct stream input, output;

static unsigned long refused_by(const char *name) {
    const char *number = getenv(name);
    return number ? strtoul(number, NULL, 10) : 0;
}

__attribute__((constructor)) static void begin(void) {
    next_read = (ssize_t (*)(int, void *, size_t))dlsym(RTLD_NEXT, "read");
    next_write = (ssize_t (*)(int, const void *, size_t))dlsym(RTLD_NEXT, "write");
    input.refused = refused_by("READ_FAILS");
    output.refused = refused_by("WRITE_FAILS");
}

__attribute__((destructor)) static void end(void) {
    const char *name = getenv("COUNT");
    FILE *file = name ? fopen(name, "w") : NULL;
    if (file) {
        fprintf(file, "%lu %lu %lu %lu\n", input.made, input.late, output.made, output.late);
        fclose(file);
    }
}

static int is_refused(struct stream *stream) {
    stream->late += stream->is_over;
    stream->made++;
    errno = EIO;
    return stream->made == stream->refused;
}

static ssize_t told(struct stream *stream, ssize_t count) {
    stream->is_over |= count <= 0;
    return count;
}

ssize_t read(int from, void *bytes, size_t count) {
    if (from != STDIN_FILENO)
        return next_read(from, bytes, count);
    return told(&input, is_refused(&input) ? -1 : next_read(from, bytes, count));
}

ssize_t write(int to, const void *bytes, size_t count) {
    if (to != STDOUT_FILENO)
        return next_write(to, bytes, count);
    return told(&output, is_refused(&output) ? -1 : next_write(to, bytes, count));
}
