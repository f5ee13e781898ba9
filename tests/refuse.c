/* Preloaded into a program by tools/gate/refusing.py. What fails is told by the environment:
     REFUSE_CALL=N        the growth of memory with this number, from 0, is refused; each call that gives a program memory is one
     REFUSE_READ=N        reads of standard input give N bytes, and then fail
     REFUSE_READ_CALL=N   the read of standard input with this number, from 0, fails, and no other
     REFUSE_WRITE=N       writes to standard output take N bytes, and then fail
     REFUSE_WRITE_CALL=N  the write to standard output with this number, from 0, fails, and no other
     REFUSE_FULL=N        writes to standard output take N bytes, and then none
     REFUSE_SHORT=N       each read of standard input and each write to standard output takes N bytes at most
     REFUSE_ERROR=E       the number with which they fail, EIO where it isn't given
   A byte on the descriptor REFUSE_TELL says that something was refused, at once: a program with threads may end without its destructors.
     REFUSE_EACH=FD       each growth of memory is refused in turn, from the first, each in a process of its own that is a copy of this one as it begins, until
                          there is none of that number. Standard input has to be a file. A line on the descriptor says what each process came to: its
                          status, or less than 0 the signal that ended it; whether a growth was refused; whether it wrote the bytes of the file
                          REFUSE_WANTED, a front of them, or the bytes of the file REFUSE_INSTEAD; and how many bytes it wrote to standard error. */
#define _GNU_SOURCE
#include <errno.h>
#include <fcntl.h>
#include <stdio.h>
#include <stdlib.h>
#include <string.h>
#include <sys/mman.h>
#include <sys/stat.h>
#include <sys/syscall.h>
#include <sys/wait.h>
#include <unistd.h>

/* How long a process may take, in seconds. */
enum { SECONDS = 120 };

extern void *__libc_malloc(size_t size);
extern void *__libc_calloc(size_t count, size_t size);
extern void *__libc_realloc(void *block, size_t size);
extern void *__libc_memalign(size_t alignment, size_t size);

static long call = 0, refused_call = -1, tell = -1, read_left = -1, write_left = -1, full_left = -1;
static long reads_left = -1, writes_left = -1, most = -1, error = -1;
/* Whether a growth was refused, where the process that waits for this one sees it. */
static volatile int *shared = NULL;

static long number(const char *name)
{
    const char *text = getenv(name);
    return text ? atol(text) : -1;
}

/* The bytes of a file. */
static char *bytes_of(int fd, size_t *size)
{
    struct stat found;
    if (fd < 0 || fstat(fd, &found) < 0)
        _exit(127);
    *size = found.st_size;
    char *bytes = __libc_malloc(*size + 1);
    if (!bytes || pread(fd, bytes, *size, 0) != (ssize_t)*size)
        _exit(127);
    return bytes;
}

static void empty(int fd)
{
    if (ftruncate(fd, 0) < 0 || lseek(fd, 0, SEEK_SET) < 0)
        _exit(127);
}

/* Begins a process for each growth of memory and says what it came to. It returns in each of these, and never in the one that begins them. */
static void serve(long report)
{
    size_t wanted_size, other_size, size, noise_size;
    char *wanted = bytes_of(open(getenv("REFUSE_WANTED"), O_RDONLY), &wanted_size);
    char *other = bytes_of(open(getenv("REFUSE_INSTEAD"), O_RDONLY), &other_size);
    int output = memfd_create("output", 0), noise = memfd_create("noise", 0);
    shared = (int *)syscall(SYS_mmap, NULL, sizeof(int), PROT_READ | PROT_WRITE, MAP_SHARED | MAP_ANONYMOUS, -1, 0);
    for (long growth = 0;; growth++) {
        empty(output);
        empty(noise);
        *shared = 0;
        if (lseek(STDIN_FILENO, 0, SEEK_SET) < 0)
            _exit(127);
        pid_t child = fork();
        if (child == 0) {
            dup2(output, STDOUT_FILENO);
            dup2(noise, STDERR_FILENO);
            alarm(SECONDS);
            refused_call = growth;
            return;
        }
        int status;
        if (child < 0 || waitpid(child, &status, 0) < 0)
            _exit(127);
        char *told = bytes_of(output, &size), *said = bytes_of(noise, &noise_size);
        int is_front = size <= wanted_size && !memcmp(told, wanted, size);
        int is_other = size == other_size && !memcmp(told, other, size);
        free(told);
        free(said);
        dprintf(report, "%d %d %d %d %d %zu\n", WIFEXITED(status) ? WEXITSTATUS(status) : -WTERMSIG(status), *shared, is_front && size == wanted_size, is_front,
                is_other, noise_size);
        if (!*shared)
            _exit(0);
    }
}

__attribute__((constructor)) static void begin(void)
{
    refused_call = number("REFUSE_CALL");
    tell = number("REFUSE_TELL");
    read_left = number("REFUSE_READ");
    write_left = number("REFUSE_WRITE");
    full_left = number("REFUSE_FULL");
    reads_left = number("REFUSE_READ_CALL");
    writes_left = number("REFUSE_WRITE_CALL");
    most = number("REFUSE_SHORT");
    error = number("REFUSE_ERROR");
    long report = number("REFUSE_EACH");
    if (report >= 0)
        serve(report);
    call = 0;
}

static int refuses(void)
{
    if (refused_call < 0 || __atomic_fetch_add(&call, 1, __ATOMIC_RELAXED) != refused_call)
        return 0;
    if (shared)
        *shared = 1;
    else
        syscall(SYS_write, tell, "r", 1);
    errno = ENOMEM;
    return 1;
}

static ssize_t failure(void)
{
    syscall(SYS_write, tell, "r", 1);
    errno = error < 0 ? EIO : error;
    return -1;
}

static size_t least(size_t size, long other)
{
    return other > 0 && (size_t)other < size ? (size_t)other : size;
}

void *malloc(size_t size)
{
    return refuses() ? NULL : __libc_malloc(size);
}

void *realloc(void *block, size_t size)
{
    return refuses() ? NULL : __libc_realloc(block, size);
}

void *calloc(size_t count, size_t size)
{
    return refuses() ? NULL : __libc_calloc(count, size);
}

void *memalign(size_t alignment, size_t size)
{
    return refuses() ? NULL : __libc_memalign(alignment, size);
}

void *aligned_alloc(size_t alignment, size_t size)
{
    return memalign(alignment, size);
}

int posix_memalign(void **block, size_t alignment, size_t size)
{
    void *found = memalign(alignment, size);
    if (!found)
        return ENOMEM;
    *block = found;
    return 0;
}

void *mmap(void *address, size_t size, int protection, int flags, int fd, off_t offset)
{
    if (refuses())
        return MAP_FAILED;
    return (void *)syscall(SYS_mmap, address, size, protection, flags, fd, offset);
}

void *mremap(void *address, size_t old_size, size_t size, int flags, ...)
{
    if (refuses())
        return MAP_FAILED;
    return (void *)syscall(SYS_mremap, address, old_size, size, flags & MREMAP_MAYMOVE);
}

ssize_t read(int fd, void *buffer, size_t size)
{
    if (fd != STDIN_FILENO)
        return syscall(SYS_read, fd, buffer, size);
    if (read_left == 0 || reads_left == 0) {
        reads_left = -1;
        return failure();
    }
    if (reads_left > 0)
        reads_left--;
    ssize_t got = syscall(SYS_read, fd, buffer, least(least(size, most), read_left));
    if (read_left > 0 && got > 0)
        read_left -= got;
    return got;
}

ssize_t write(int fd, const void *buffer, size_t size)
{
    if (fd != STDOUT_FILENO)
        return syscall(SYS_write, fd, buffer, size);
    if (full_left == 0) {
        syscall(SYS_write, tell, "r", 1);
        return 0;
    }
    if (write_left == 0 || writes_left == 0) {
        writes_left = -1;
        return failure();
    }
    if (writes_left > 0)
        writes_left--;
    ssize_t put = syscall(SYS_write, fd, buffer, least(least(least(size, most), write_left), full_left));
    if (write_left > 0 && put > 0)
        write_left -= put;
    if (full_left > 0 && put > 0)
        full_left -= put;
    return put;
}
