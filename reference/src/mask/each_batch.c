/* Loaded before the program that is called as PROGRAM says, runs its `main` once for each batch of the packed stream that PACKED names, with the batch as
   standard input. A program without writable data does each time what it does in a process of its own. */
#define _GNU_SOURCE
#include <dlfcn.h>
#include <stdio.h>
#include <stdlib.h>
#include <string.h>
#include <sys/mman.h>
#include <unistd.h>

typedef int entry(int, char **, char **);
typedef int start(entry *, int, char **, void (*)(void), void (*)(void), void (*)(void), void *);

static entry *program;

static void check(int holds, const char *what)
{
    if (!holds) {
        perror(what);
        _exit(1);
    }
}

/* The next bytes of the stream as standard input. */
static void lend(FILE *stream, size_t length)
{
    int batch = memfd_create("batch", 0);
    char *bytes = malloc(length + 1);
    check(batch >= 0 && bytes != NULL, "a batch");
    check(fread(bytes, 1, length, stream) == length, "a batch is cut");
    check(write(batch, bytes, length) == (ssize_t)length, "a batch");
    check(lseek(batch, 0, SEEK_SET) == 0 && dup2(batch, STDIN_FILENO) == STDIN_FILENO, "a batch");
    close(batch);
    free(bytes);
}

static int each(int count, char **words, char **environment)
{
    FILE *stream = fopen(getenv("PACKED"), "rb");
    unsigned char head[4];
    check(stream != NULL, "PACKED");
    while (fread(head, 1, sizeof head, stream) == sizeof head) {
        lend(stream, (size_t)head[0] << 24 | (size_t)head[1] << 16 | (size_t)head[2] << 8 | head[3]);
        program(count, words, environment);
    }
    return 0;
}

int __libc_start_main(entry *main, int count, char **words, void (*init)(void), void (*fini)(void), void (*loader)(void), void *stack)
{
    const char *name = getenv("PROGRAM");
    int is_program = name != NULL && count > 0 && strcmp(words[0], name) == 0;
    start *next;
    *(void **)&next = dlsym(RTLD_NEXT, "__libc_start_main");
    program = main;
    return next(is_program ? each : main, count, words, init, fini, loader, stack);
}
