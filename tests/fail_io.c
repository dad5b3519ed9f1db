/* Preloaded before a program, gives it the first FAIL_READ bytes of standard input, or takes the first FAIL_WRITE
   bytes of standard output; whatever it reads or writes then fails. A read gives at most PIECE_READ bytes, a write
   takes at most PIECE_WRITE. The read or write whose number, from 1, is INTERRUPT_READ or INTERRUPT_WRITE fails as one
   that a signal interrupts; those behind it don't. A program that reads once more after a failed read, or writes once
   more after a failed write, exits with 99. */
#define _GNU_SOURCE
#include <dlfcn.h>
#include <errno.h>
#include <stdlib.h>
#include <unistd.h>

struct stream {
    const char *whole, *piece, *interrupt;
    int is_known, has_failed;
    size_t left, most, made, interrupted;
};

static size_t number_in(const char *name) {
    const char *digits = getenv(name);
    return digits ? strtoul(digits, 0, 10) : -1ul;
}

static size_t least(size_t a, size_t b) {
    return a < b ? a : b;
}

/* How much of these bytes is let through. */
static size_t let_through(struct stream *stream, size_t count) {
    if (!stream->is_known) {
        stream->left = number_in(stream->whole);
        stream->most = number_in(stream->piece);
        stream->interrupted = number_in(stream->interrupt);
        stream->is_known = 1;
    }
    if (stream->has_failed)
        _exit(99);
    return least(count, least(stream->left, stream->most));
}

static ssize_t failed(struct stream *stream, int why) {
    stream->has_failed = 1;
    errno = why;
    return -1;
}

static ssize_t moved(struct stream *stream, ssize_t count) {
    if (count > 0)
        stream->left -= count;
    return count;
}

ssize_t read(int file, void *to, size_t count) {
    static ssize_t (*next)(int, void *, size_t);
    static struct stream input = { .whole = "FAIL_READ", .piece = "PIECE_READ", .interrupt = "INTERRUPT_READ" };
    if (!next)
        next = dlsym(RTLD_NEXT, "read");
    if (file != STDIN_FILENO)
        return next(file, to, count);
    size_t most = let_through(&input, count);
    if (++input.made == input.interrupted)
        return failed(&input, EINTR);
    return count && !most ? failed(&input, EIO) : moved(&input, next(file, to, most));
}

ssize_t write(int file, const void *from, size_t count) {
    static ssize_t (*next)(int, const void *, size_t);
    static struct stream output = { .whole = "FAIL_WRITE", .piece = "PIECE_WRITE", .interrupt = "INTERRUPT_WRITE" };
    if (!next)
        next = dlsym(RTLD_NEXT, "write");
    if (file != STDOUT_FILENO)
        return next(file, from, count);
    size_t most = let_through(&output, count);
    if (++output.made == output.interrupted)
        return failed(&output, EINTR);
    return count && !most ? failed(&output, EIO) : moved(&output, next(file, from, most));
}

ssize_t __write(int file, const void *from, size_t count) {
    return write(file, from, count);
}
