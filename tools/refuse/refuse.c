/* Refuses the allocations of one call, one at a time.
 *
 * tools/refuse/run builds this as a library that the loader puts in front of the C library. Before `main` it forks: one
 * child makes the call as it is, and each further child makes it again with one allocation refused, the first, the
 * second and so on, until there is none left to refuse. The process itself compares what each child printed, its status
 * and the file that it wrote, and never comes to `main`.
 *
 * A refused call has to answer as the call does, or to end with status 1 and nothing printed. Then the file that it was
 * to write may hold anything: it is counted how often that was neither what stood there before nor what the call writes.
 *
 * REFUSE_MOST is how many allocations are refused at most, evenly spread; 0 is no such limit. It prints one line:
 * how many allocations the call makes, how many were refused, how many of these calls ended with 1 and how many answered,
 * how often the file held something else, and how many calls did what they must not. Each of these has a line on standard
 * error.
 */
#define _GNU_SOURCE
#include <errno.h>
#include <fcntl.h>
#include <stdatomic.h>
#include <stdint.h>
#include <stdio.h>
#include <stdlib.h>
#include <string.h>
#include <sys/mman.h>
#include <sys/stat.h>
#include <sys/wait.h>
#include <unistd.h>

enum { SECONDS = 60, NO_MEMORY = 1 };

/* What a child and its parent share. */
struct shared {
    atomic_long made;      /* allocations so far */
    atomic_int refused;    /* whether one was refused */
};

static struct shared *shared;
static long refuse_at;     /* the number of the allocation that is refused, from 1 */
static int counting;       /* whether this process is a child that makes the call */

/* Whether the allocation that is asked for now is to be refused. */
static int refuses(void) {
    if (!counting || atomic_fetch_add(&shared->made, 1) + 1 != refuse_at)
        return 0;
    atomic_store(&shared->refused, 1);
    errno = ENOMEM;
    return 1;
}

void *__libc_malloc(size_t size);
void *__libc_calloc(size_t count, size_t size);
void *__libc_realloc(void *block, size_t size);
void *__libc_memalign(size_t alignment, size_t size);

void *malloc(size_t size) {
    return refuses() ? NULL : __libc_malloc(size);
}

void *calloc(size_t count, size_t size) {
    return refuses() ? NULL : __libc_calloc(count, size);
}

void *realloc(void *block, size_t size) {
    return refuses() ? NULL : __libc_realloc(block, size);
}

void *memalign(size_t alignment, size_t size) {
    return refuses() ? NULL : __libc_memalign(alignment, size);
}

void *aligned_alloc(size_t alignment, size_t size) {
    return memalign(alignment, size);
}

int posix_memalign(void **block, size_t alignment, size_t size) {
    void *made = memalign(alignment, size);
    if (!made)
        return ENOMEM;
    *block = made;
    return 0;
}

static void stop(const char *what) {
    fprintf(stderr, "refuse: %s: %s\n", what, strerror(errno));
    _exit(2);
}

/* Bytes, or that there are none: `bytes` is then null. */
struct text {
    char *bytes;
    size_t length;
};

static int same(struct text one, struct text other) {
    if (!one.bytes || !other.bytes)
        return !one.bytes && !other.bytes;
    return one.length == other.length && !memcmp(one.bytes, other.bytes, one.length);
}

static struct text none(void) {
    return (struct text){NULL, 0};
}

/* All that an open file holds. */
static struct text held(int file) {
    struct stat about;
    if (fstat(file, &about))
        stop("a file has no length");
    struct text text = {__libc_malloc((size_t)about.st_size + 1), (size_t)about.st_size};
    if (!text.bytes || pread(file, text.bytes, text.length, 0) != (ssize_t)text.length)
        stop("a file is not read");
    return text;
}

static struct text of_file(const char *name) {
    int file = name ? open(name, O_RDONLY) : -1;
    if (file < 0)
        return none();
    struct text text = held(file);
    close(file);
    return text;
}

/* Puts a file back to what it held. */
static void put_back(const char *name, struct text text) {
    if (!name)
        return;
    if (!text.bytes) {
        if (unlink(name) && errno != ENOENT)
            stop(name);
        return;
    }
    int file = open(name, O_WRONLY | O_CREAT | O_TRUNC, 0666);
    if (file < 0 || write(file, text.bytes, text.length) != (ssize_t)text.length)
        stop(name);
    close(file);
}

/* How a call ended, what it printed, and what the file holds that it was to write. */
struct end {
    int status;            /* or 256 and the signal that ended it */
    struct text printed, written;
};

static void let_go(struct end end) {
    free(end.printed.bytes);
    free(end.written.bytes);
}

static int output;         /* where a child prints */
static const char *book;   /* the file that the call writes, or null */
static struct text before; /* what it held */

/* In a child: it goes on to `main`, and the allocation of this number is refused. */
static void go_on(long number) {
    if (dup2(output, STDOUT_FILENO) < 0)
        stop("standard output");
    alarm(SECONDS);
    refuse_at = number;
    counting = 1;
}

/* Makes the call with the allocation of this number refused, or none. Returns 1 in the child, and 0 with its end. */
static int call(long number, struct end *end) {
    put_back(book, before);
    atomic_store(&shared->made, 0);
    atomic_store(&shared->refused, 0);
    if (ftruncate(output, 0) || lseek(output, 0, SEEK_SET))
        stop("the output");
    pid_t child = fork();
    if (child < 0)
        stop("fork");
    if (!child) {
        go_on(number);
        return 1;
    }
    int status;
    if (waitpid(child, &status, 0) != child)
        stop("waitpid");
    end->status = WIFEXITED(status) ? WEXITSTATUS(status) : 256 + WTERMSIG(status);
    end->printed = held(output);
    end->written = of_file(book);
    return 0;
}

/* What came of the refused calls. */
struct sums {
    long refused, ended, answered, half_written, wrong;
};

static void count(struct sums *sums, long number, struct end own, struct end end) {
    sums->refused++;
    if (end.status == own.status && same(end.printed, own.printed) && same(end.written, own.written)) {
        sums->answered++;
    } else if (end.status == NO_MEMORY && !end.printed.length) {
        sums->ended++;
        sums->half_written += !same(end.written, before) && !same(end.written, own.written);
    } else {
        sums->wrong++;
        fprintf(stderr, "refuse: allocation %ld: status %d, %zu bytes printed, %s\n", number, end.status,
                end.printed.length, same(end.written, own.written) ? "the call's own file" : "another file");
    }
}

/* The file that a call with these words writes. */
static const char *book_of(int count, char **words) {
    if (count > 5 && !strcmp(words[1], "run"))
        return words[5];
    if (count == 5 && !strcmp(words[1], "make"))
        return words[4];
    return NULL;
}

/* From one refused allocation to the next, where of so many at most so many are refused. */
static long step(long allocations, long most) {
    return most > 0 && allocations > most ? (allocations + most - 1) / most : 1;
}

__attribute__((constructor)) static void refuse(int argc, char **argv) {
    unsetenv("LD_PRELOAD");
    const char *most = getenv("REFUSE_MOST");
    shared = mmap(NULL, sizeof *shared, PROT_READ | PROT_WRITE, MAP_SHARED | MAP_ANONYMOUS, -1, 0);
    output = memfd_create("output", 0);
    if (!most || shared == MAP_FAILED || output < 0)
        stop("tools/refuse/run starts this");
    book = book_of(argc, argv);
    before = of_file(book);
    struct end own, end;
    if (call(0, &own))
        return;
    long allocations = atomic_load(&shared->made);
    struct sums sums = {0};
    for (long number = 1;; number += step(allocations, atol(most))) {
        if (call(number, &end))
            return;
        if (!atomic_load(&shared->refused)) {
            let_go(end);
            break;
        }
        count(&sums, number, own, end);
        let_go(end);
    }
    put_back(book, own.written);
    printf("%ld %ld %ld %ld %ld %ld\n", allocations, sums.refused, sums.ended, sums.answered, sums.half_written,
           sums.wrong);
    fflush(stdout);
    _exit(0);
}
