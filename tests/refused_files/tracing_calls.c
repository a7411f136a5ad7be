/* Runs a program and lists its system calls that open a file or change a name: tracing_calls TRACE PROGRAM WORD...

   TRACE gets a line for each: `read`, `write`, `remove`, `rename` or `change`, and the path as it was handed in. `write` is an open that
   may write, create or cut a file; of a rename both paths have a line. It is `ptrace` alone, so nothing that the program does about the C
   library hides a call. The status is the program's. */
#define _GNU_SOURCE
#include <errno.h>
#include <fcntl.h>
#include <signal.h>
#include <stdint.h>
#include <stdio.h>
#include <stdlib.h>
#include <string.h>
#include <sys/ptrace.h>
#include <sys/syscall.h>
#include <sys/uio.h>
#include <sys/wait.h>
#include <unistd.h>

static FILE *trace;

static void tell(pid_t process, const char *what, uint64_t address)
{
    char path[4096];
    size_t length = 0;

    /* A byte at a time: what is behind a path may not be there. */
    while (length + 1 < sizeof path) {
        struct iovec here = {path + length, 1}, there = {(void *)(uintptr_t)(address + length), 1};
        if (process_vm_readv(process, &here, 1, &there, 1, 0) != 1 || path[length] == 0)
            break;
        length++;
    }
    path[length] = 0;
    fprintf(trace, "%s %s\n", what, path);
}

static void tell_open(pid_t process, uint64_t address, uint64_t flags)
{
    int may_write = (flags & O_ACCMODE) != O_RDONLY || (flags & (O_CREAT | O_TRUNC)) != 0;

    tell(process, may_write ? "write" : "read", address);
}

static void tell_call(pid_t process, uint64_t call, const uint64_t *words)
{
    struct open_how_front {
        uint64_t flags;
    } how = {0};

    switch (call) {
#ifdef SYS_open
    case SYS_open:
        tell_open(process, words[0], words[1]);
        break;
    case SYS_creat:
        tell(process, "write", words[0]);
        break;
    case SYS_unlink:
    case SYS_rmdir:
        tell(process, "remove", words[0]);
        break;
    case SYS_rename:
        tell(process, "rename", words[0]);
        tell(process, "rename", words[1]);
        break;
    case SYS_link:
    case SYS_symlink:
        tell(process, "change", words[1]);
        break;
    case SYS_mkdir:
    case SYS_mknod:
    case SYS_chmod:
    case SYS_chown:
    case SYS_lchown:
        tell(process, "change", words[0]);
        break;
#endif
    case SYS_openat:
        tell_open(process, words[1], words[2]);
        break;
#ifdef SYS_openat2
    case SYS_openat2: {
        struct iovec here = {&how, sizeof how}, there = {(void *)(uintptr_t)words[2], sizeof how};
        if (process_vm_readv(process, &here, 1, &there, 1, 0) != (ssize_t)sizeof how)
            how.flags = O_RDWR;
        tell_open(process, words[1], how.flags);
        break;
    }
#endif
    case SYS_truncate:
        tell(process, "write", words[0]);
        break;
    case SYS_unlinkat:
        tell(process, "remove", words[1]);
        break;
#ifdef SYS_renameat
    case SYS_renameat:
#endif
    case SYS_renameat2:
        tell(process, "rename", words[1]);
        tell(process, "rename", words[3]);
        break;
    case SYS_linkat:
        tell(process, "change", words[3]);
        break;
    case SYS_symlinkat:
        tell(process, "change", words[2]);
        break;
    case SYS_mkdirat:
    case SYS_mknodat:
    case SYS_fchmodat:
    case SYS_fchownat:
    case SYS_utimensat:
        tell(process, "change", words[1]);
        break;
    default:
        break;
    }
}

static void fail(const char *what)
{
    perror(what);
    exit(125);
}

/* Follows all processes of the program to their ends, and answers the status of the first. */
static int follow(pid_t first)
{
    int status, first_status = 125;
    pid_t process;

    while ((process = waitpid(-1, &status, __WALL)) > 0) {
        int signal = 0;

        if (WIFEXITED(status) || WIFSIGNALED(status)) {
            if (process == first)
                first_status = WIFEXITED(status) ? WEXITSTATUS(status) : 128 + WTERMSIG(status);
            continue;
        }
        if (WSTOPSIG(status) == (SIGTRAP | 0x80)) {
            struct __ptrace_syscall_info info;
            if (ptrace(PTRACE_GET_SYSCALL_INFO, process, sizeof info, &info) > 0 && info.op == PTRACE_SYSCALL_INFO_ENTRY)
                tell_call(process, info.entry.nr, (const uint64_t *)info.entry.args);
        } else if (WSTOPSIG(status) != SIGTRAP && WSTOPSIG(status) != SIGSTOP)
            signal = WSTOPSIG(status);
        ptrace(PTRACE_SYSCALL, process, 0, signal);
    }
    return first_status;
}

int main(int count, char **words)
{
    int status;
    pid_t process;

    if (count < 3)
        return 125;
    trace = fopen(words[1], "we");
    if (trace == NULL)
        fail(words[1]);
    process = fork();
    if (process < 0)
        fail("fork");
    if (process == 0) {
        if (ptrace(PTRACE_TRACEME, 0, 0, 0) != 0)
            fail("ptrace");
        raise(SIGSTOP);
        execv(words[2], words + 2);
        fail(words[2]);
    }
    if (waitpid(process, &status, 0) != process || !WIFSTOPPED(status))
        fail("wait");
    if (ptrace(PTRACE_SETOPTIONS, process, 0, PTRACE_O_TRACESYSGOOD | PTRACE_O_EXITKILL | PTRACE_O_TRACECLONE | PTRACE_O_TRACEFORK | PTRACE_O_TRACEVFORK) != 0)
        fail("ptrace");
    ptrace(PTRACE_SYSCALL, process, 0, 0);
    status = follow(process);
    if (fclose(trace) != 0)
        fail(words[1]);
    return status;
}
