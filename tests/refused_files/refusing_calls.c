/* Stands before the C library's calls on files and refuses one of a program, counted from its `main` on.

   REFUSE=N refuses call number N: it does nothing and fails with EIO, or with the number in ERROR. The calls are open,
   read, write, fsync, fchmod, flock, rename, unlink, statx and close. An open that may write a file is `alter`. One that
   creates a file is `create` where nothing may have its name and its owner alone may use it, else `share`. Each is written to descriptor 3 as a line: its name and, where it has one, the path
   that was handed in or opened. A closed descriptor is closed also where the call is refused, as Linux does. */
#define _GNU_SOURCE
#include <dlfcn.h>
#include <errno.h>
#include <fcntl.h>
#include <stdarg.h>
#include <stdio.h>
#include <stdlib.h>
#include <string.h>
#include <sys/file.h>
#include <sys/stat.h>
#include <sys/syscall.h>
#include <unistd.h>

typedef int main_function(int, char **, char **);

static main_function *program_main;
static int is_counting;
static unsigned long calls;
static unsigned long refused;
static int error = EIO;
static char paths[64][512];

static const char *path_of(int descriptor)
{
    return descriptor >= 0 && descriptor < 64 ? paths[descriptor] : "";
}

static const char *name_of_open(int flags, mode_t mode)
{
    if (!(flags & O_CREAT))
        return (flags & O_ACCMODE) == O_RDONLY ? "open" : "alter";
    return (flags & O_EXCL) && mode == 0600 ? "create" : "share";
}

static int is_refused(const char *name, const char *path)
{
    char line[640];
    int length;

    if (!is_counting)
        return 0;
    calls++;
    length = snprintf(line, sizeof line, "%s %s\n", name, path);
    if (syscall(SYS_write, 3, line, (size_t)length) != length)
        abort();
    if (calls != refused)
        return 0;
    errno = error;
    return 1;
}

int open(const char *path, int flags, ...)
{
    mode_t mode = 0;
    va_list rest;
    int descriptor;

    if (flags & O_CREAT) {
        va_start(rest, flags);
        mode = va_arg(rest, mode_t);
        va_end(rest);
    }
    if (is_refused(name_of_open(flags, mode), path))
        return -1;
    descriptor = (int)syscall(SYS_openat, AT_FDCWD, path, flags, mode);
    if (descriptor >= 0 && descriptor < 64)
        snprintf(paths[descriptor], sizeof paths[descriptor], "%s", path);
    return descriptor;
}

ssize_t read(int descriptor, void *bytes, size_t count)
{
    return is_refused("read", path_of(descriptor)) ? -1 : syscall(SYS_read, descriptor, bytes, count);
}

ssize_t write(int descriptor, const void *bytes, size_t count)
{
    return is_refused("write", path_of(descriptor)) ? -1 : syscall(SYS_write, descriptor, bytes, count);
}

ssize_t __write(int descriptor, const void *bytes, size_t count)
{
    return write(descriptor, bytes, count);
}

int fsync(int descriptor)
{
    return is_refused("fsync", path_of(descriptor)) ? -1 : (int)syscall(SYS_fsync, descriptor);
}

int fchmod(int descriptor, mode_t mode)
{
    return is_refused("fchmod", path_of(descriptor)) ? -1 : (int)syscall(SYS_fchmod, descriptor, mode);
}

int flock(int descriptor, int operation)
{
    return is_refused("flock", path_of(descriptor)) ? -1 : (int)syscall(SYS_flock, descriptor, operation);
}

int rename(const char *from, const char *to)
{
    return is_refused("rename", to) ? -1 : (int)syscall(SYS_renameat2, AT_FDCWD, from, AT_FDCWD, to, 0);
}

int unlink(const char *path)
{
    return is_refused("unlink", path) ? -1 : (int)syscall(SYS_unlinkat, AT_FDCWD, path, 0);
}

int statx(int folder, const char *restrict path, int flags, unsigned mask, struct statx *restrict found)
{
    const char *which = path[0] != 0 ? path : path_of(folder);

    return is_refused("statx", which) ? -1 : (int)syscall(SYS_statx, folder, path, flags, mask, found);
}

int close(int descriptor)
{
    int is_bad = is_refused("close", path_of(descriptor));
    int status = (int)syscall(SYS_close, descriptor);

    if (is_bad)
        errno = error;
    return is_bad ? -1 : status;
}

static int counting_main(int count, char **words, char **environment)
{
    int status;

    is_counting = 1;
    status = program_main(count, words, environment);
    is_counting = 0;
    return status;
}

int __libc_start_main(main_function *given, int count, char **words, void (*init)(void), void (*fini)(void),
                      void (*rtld_fini)(void), void *stack)
{
    typedef int start_function(main_function *, int, char **, void (*)(void), void (*)(void), void (*)(void), void *);
    start_function *start = (start_function *)dlsym(RTLD_NEXT, "__libc_start_main");
    const char *refuse = getenv("REFUSE");

    refused = refuse == NULL ? 0 : strtoul(refuse, NULL, 10);
    error = getenv("ERROR") == NULL ? EIO : atoi(getenv("ERROR"));
    program_main = given;
    return start(counting_main, count, words, init, fini, rtld_fini, stack);
}
