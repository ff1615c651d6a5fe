/* Stands between a program and the system's `read` and `write`. What the next calls do is told by READS, WRITES and NOTES, for standard input, output and error:
   words with commas between, one for each call. N: no more than N bytes are asked for; -N: the call fails with error N; =N: the call does nothing and answers
   N. Behind the last word calls go to the system as they are. */
#define _GNU_SOURCE
#include <errno.h>
#include <stdlib.h>
#include <sys/syscall.h>
#include <unistd.h>

static const char *const names[] = {"READS", "WRITES", "NOTES"};
static const char *left[3];

/* The next word for a descriptor, or none. */
static const char *word(int fd)
{
    if (fd < 0 || fd > 2)
        return NULL;
    if (left[fd] == NULL && (left[fd] = getenv(names[fd])) == NULL)
        left[fd] = "";
    if (*left[fd] == 0)
        return NULL;
    const char *now = left[fd];
    while (*left[fd] != 0 && *left[fd] != ',')
        left[fd]++;
    if (*left[fd] == ',')
        left[fd]++;
    return now;
}

static ssize_t call(long number, int fd, void *bytes, size_t count)
{
    const char *now = word(fd);
    if (now != NULL && *now == '-') {
        errno = atoi(now + 1);
        return -1;
    }
    if (now != NULL && *now == '=')
        return atoi(now + 1);
    if (now != NULL && (size_t)atoi(now) < count)
        count = (size_t)atoi(now);
    return syscall(number, fd, bytes, count);
}

ssize_t read(int fd, void *bytes, size_t count)
{
    return call(SYS_read, fd, bytes, count);
}

ssize_t write(int fd, const void *bytes, size_t count)
{
    return call(SYS_write, fd, (void *)bytes, count);
}
