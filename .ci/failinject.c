/* Fault injection: a shim for LD_PRELOAD that replaces malloc, realloc, read, write and setsockopt. It is controlled by the environment,
   and writes its results to descriptor 9.

   FAIL_ALLOC=N, FAIL_READ=N, FAIL_WRITE=N   the Nth allocation, read, or write to standard output fails; a byte on descriptor 9 shows that
                       the program has reached it
   ONE_BYTE=1          each read and write moves one byte
   COUNT_ALLOCS=1      for each line that the program writes to standard output: a line with the number of allocations before it
   LOG_SOCKOPTS=1      for each socket option that the program sets: a line with its level, its number and the first word of its value
   FAIL_EACH_ALLOC=1   after the program has written its first line to standard output, it forks for each allocation up to its next line:
                       in the first child process the first of these allocations fails, in the second child the second, until a child makes
                       fewer allocations. If a child exits with a status other than 0, the program exits with that status at once. A line
                       has the number of allocations that failed. The file of standard output has the output of the last child only. */
#define _GNU_SOURCE
#include <dlfcn.h>
#include <errno.h>
#include <stdio.h>
#include <stdlib.h>
#include <string.h>
#include <sys/mman.h>
#include <sys/socket.h>
#include <sys/syscall.h>
#include <sys/wait.h>
#include <unistd.h>

static int fails(long *calls, const char *name)
{
    const char *number = getenv(name);
    if (number == NULL || ++*calls != atol(number))
        return 0;
    syscall(SYS_write, 9, "x", 1);
    return 1;
}

static long allocations;

/* For FAIL_EACH_ALLOC: the number of lines written, the number of the allocation after the first line that fails in this process, the
   number of allocations since that line, and whether the child has reached the one that fails. */
static long lines, chosen, since;
static volatile int *reached;

static int alloc_fails(void)
{
    static long calls;
    allocations++;
    if (lines == 1 && chosen > 0 && ++since == chosen)
        return *reached = 1;
    return fails(&calls, "FAIL_ALLOC");
}

/* Forks one child after another, and returns in each child. The limit for a child is two minutes. */
static void fail_each(void)
{
    char line[32];
    int status;
    reached = mmap(NULL, sizeof *reached, PROT_READ | PROT_WRITE, MAP_SHARED | MAP_ANONYMOUS, -1, 0);
    if (reached == MAP_FAILED)
        _exit(1);
    do {
        *reached = 0;
        chosen++;
        pid_t child = fork();
        if (child == 0) {
            alarm(120);
            if (ftruncate(1, 0) == 0)
                lseek(1, 0, SEEK_SET);
            return;
        }
        if (child < 0 || waitpid(child, &status, 0) != child)
            _exit(1);
    } while (status == 0 && *reached);
    syscall(SYS_write, 9, line, snprintf(line, sizeof line, "%ld\n", chosen - !*reached));
    _exit(WIFEXITED(status) ? WEXITSTATUS(status) : 1);
}

static void log_allocations(void)
{
    char line[32];
    int size = snprintf(line, sizeof line, "%ld\n", allocations);
    syscall(SYS_write, 9, line, size);
}

void *malloc(size_t size)
{
    static void *(*next)(size_t);
    if (next == NULL)
        next = (void *(*)(size_t))dlsym(RTLD_NEXT, "malloc");
    if (alloc_fails()) {
        errno = ENOMEM;
        return NULL;
    }
    return next(size);
}

void *realloc(void *old, size_t size)
{
    static void *(*next)(void *, size_t);
    if (next == NULL)
        next = (void *(*)(void *, size_t))dlsym(RTLD_NEXT, "realloc");
    if (alloc_fails()) {
        errno = ENOMEM;
        return NULL;
    }
    return next(old, size);
}

static size_t limited(size_t size)
{
    return getenv("ONE_BYTE") != NULL && size > 1 ? 1 : size;
}

ssize_t read(int file, void *to, size_t size)
{
    static long calls;
    if (fails(&calls, "FAIL_READ")) {
        errno = EIO;
        return -1;
    }
    return syscall(SYS_read, file, to, limited(size));
}

ssize_t write(int file, const void *from, size_t size)
{
    static long calls;
    if (file == 1 && fails(&calls, "FAIL_WRITE")) {
        errno = EIO;
        return -1;
    }
    int is_line = file == 1 && size > 0 && ((const char *)from)[size - 1] == '\n';
    if (is_line && getenv("COUNT_ALLOCS") != NULL)
        log_allocations();
    if (is_line && ++lines == 1 && getenv("FAIL_EACH_ALLOC") != NULL)
        fail_each();
    return syscall(SYS_write, file, from, limited(size));
}

int setsockopt(int file, int level, int option, const void *value, socklen_t size)
{
    long done = syscall(SYS_setsockopt, file, level, option, value, size), word = 0;
    char line[64];
    if (done < 0)
        return -1;
    memcpy(&word, value, size < sizeof word ? size : sizeof word);
    if (getenv("LOG_SOCKOPTS") != NULL)
        syscall(SYS_write, 9, line, snprintf(line, sizeof line, "%d %d %ld\n", level, option, word));
    return 0;
}
