/* refusing_malloc.c: a library that refuses a program the Nth request for memory, for one N behind another.

   refuse_growths.py compiles it and has the loader put it in front of the C library (LD_PRELOAD), so that the program's
   calls of malloc, realloc, calloc and aligned_alloc come here. Before the program's main begins, the process forks once for each
   N that the environment asks for: the child goes on into main, over the whole of standard input, and the parent waits for it
   and writes a line `N STATUS MET REFUSED LENGTH` and what the child wrote. So a run costs a fork, and the program is started
   once. Nothing of the program is changed.

   REFUSE_FROM, REFUSE_STEP   the first N, and how far it is to the next
   REFUSE_TO                  the last N; 0 goes on until a run meets no refusal
   REFUSE_ROW                 how many requests are refused in a row, from the Nth on; 0 refuses none

   A run that a signal ends is the last; one that takes too long is ended so. */

#define _GNU_SOURCE
#include <errno.h>
#include <stdio.h>
#include <stdlib.h>
#include <sys/mman.h>
#include <sys/resource.h>
#include <sys/wait.h>
#include <unistd.h>

extern void *__libc_malloc(size_t size);
extern void *__libc_realloc(void *old, size_t size);
extern void *__libc_calloc(size_t count, size_t size);
extern void *__libc_memalign(size_t alignment, size_t size);

/* How much of a processor one run may take. (It reads a file, and waits for nothing.) */
enum { SECONDS = 10 };

/* Requests that a run has met, and those that it was refused. The parent reads what the child counts. */
static struct {
    unsigned long met, refused;
} *counted;

static unsigned long refused_first, refused_in_a_row;

static int is_refused(void)
{
    unsigned long number;
    if (!counted)
        return 0;
    number = ++counted->met;
    if (number < refused_first || number - refused_first >= refused_in_a_row)
        return 0;
    counted->refused++;
    errno = ENOMEM;
    return 1;
}

void *malloc(size_t size)
{
    return is_refused() ? NULL : __libc_malloc(size);
}

void *realloc(void *old, size_t size)
{
    return is_refused() ? NULL : __libc_realloc(old, size);
}

void *calloc(size_t count, size_t size)
{
    return is_refused() ? NULL : __libc_calloc(count, size);
}

void *aligned_alloc(size_t alignment, size_t size)
{
    return is_refused() ? NULL : __libc_memalign(alignment, size);
}

static unsigned long asked(const char *name)
{
    const char *text = getenv(name);
    return text ? strtoul(text, NULL, 10) : 0;
}

static void stop_where(int fails, const char *what)
{
    if (fails) {
        perror(what);
        _exit(70);
    }
}

static void put(const char *from, size_t length)
{
    while (length > 0) {
        ssize_t count = write(STDOUT_FILENO, from, length);
        stop_where(count <= 0, "write");
        from += count;
        length -= (size_t)count;
    }
}

/* Tells how a run ended and what it wrote to the file. */
static void tell(unsigned long number, int ended, int file)
{
    char bytes[4096];
    int status = WIFEXITED(ended) ? WEXITSTATUS(ended) : 128 + WTERMSIG(ended);
    off_t length = lseek(file, 0, SEEK_END);
    int count = snprintf(bytes, sizeof bytes, "%lu %d %lu %lu %ld\n", number, status, counted->met, counted->refused, (long)length);
    put(bytes, (size_t)count);
    for (off_t at = 0; at < length;) {
        ssize_t read = pread(file, bytes, sizeof bytes, at);
        stop_where(read <= 0, "read");
        put(bytes, (size_t)read);
        at += read;
    }
}

__attribute__((constructor)) static void run_for_each(void)
{
    unsigned long number = asked("REFUSE_FROM"), last = asked("REFUSE_TO"), step = asked("REFUSE_STEP");
    int file = memfd_create("written", 0), ended;
    stop_where(file < 0, "memfd_create");
    counted = mmap(NULL, sizeof *counted, PROT_READ | PROT_WRITE, MAP_SHARED | MAP_ANONYMOUS, -1, 0);
    stop_where(counted == MAP_FAILED, "mmap");
    do {
        pid_t child;
        stop_where(ftruncate(file, 0) || lseek(file, 0, SEEK_SET) || lseek(STDIN_FILENO, 0, SEEK_SET), "seek");
        counted->met = counted->refused = 0;
        child = fork();
        stop_where(child < 0, "fork");
        if (child == 0) {
            refused_first = number;
            refused_in_a_row = asked("REFUSE_ROW");
            stop_where(dup2(file, STDOUT_FILENO) < 0 || close(file), "dup2");
            stop_where(setrlimit(RLIMIT_CPU, &(struct rlimit){ SECONDS, SECONDS + 1 }), "setrlimit");
            stop_where(setrlimit(RLIMIT_CORE, &(struct rlimit){ 0, 0 }), "setrlimit");
            return;
        }
        stop_where(waitpid(child, &ended, 0) != child, "wait");
        tell(number, ended, file);
        number += step;
    } while (WIFEXITED(ended) && (last ? number <= last : counted->refused > 0));
    _exit(0);
}
