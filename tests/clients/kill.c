/* Runs a program and ends it before one of its calls that change files.

       kill MODE N PROGRAM ARG..

   MODE is `before` (kills before the call with number N), `half` (lets it write half of its bytes
   first, if it writes) or `fail` (the call fails with EIO, and the program runs on). Calls are
   counted from 1. The status is 100 if the program was killed, 101 if it made fewer calls, and else
   the program's own. */
#include <errno.h>
#include <fcntl.h>
#include <signal.h>
#include <stdio.h>
#include <stdlib.h>
#include <string.h>
#include <sys/ptrace.h>
#include <sys/syscall.h>
#include <sys/types.h>
#include <sys/user.h>
#include <sys/wait.h>
#include <unistd.h>

#ifndef __x86_64__
#error "this machine has other registers"
#endif

static int writes(long number)
{
    return number == SYS_write || number == SYS_pwrite64;
}

/* Whether a call changes files. Writes to the standard streams don't count. */
static int changes(const struct user_regs_struct *call)
{
    switch ((long)call->orig_rax) {
    case SYS_write: case SYS_pwrite64:
        return call->rdi > 2;
    case SYS_open:
        return (call->rsi & (O_CREAT | O_TRUNC)) != 0;
    case SYS_openat:
        return (call->rdx & (O_CREAT | O_TRUNC)) != 0;
    case SYS_writev: case SYS_pwritev: case SYS_pwritev2: case SYS_copy_file_range:
    case SYS_sendfile: case SYS_creat: case SYS_ftruncate: case SYS_truncate:
    case SYS_fallocate: case SYS_fsync: case SYS_fdatasync: case SYS_sync_file_range:
    case SYS_rename: case SYS_renameat: case SYS_renameat2: case SYS_unlink:
    case SYS_unlinkat: case SYS_mkdir: case SYS_mkdirat: case SYS_rmdir: case SYS_link:
    case SYS_linkat: case SYS_symlink: case SYS_symlinkat: case SYS_chmod: case SYS_fchmod:
    case SYS_fchmodat: case SYS_chown: case SYS_fchown: case SYS_lchown: case SYS_fchownat:
        return 1;
    default:
        return 0;
    }
}

static void fault(const char *what)
{
    perror(what);
    exit(102);
}

static void end(pid_t child)
{
    kill(child, SIGKILL);
    waitpid(child, NULL, 0);
    exit(100);
}

/* Lets the program run to the start or the end of a call. Its exit ends this program too. */
static void run(pid_t child, int *is_done, int *status)
{
    int passed = 0;
    for (;;) {
        if (ptrace(PTRACE_SYSCALL, child, NULL, passed) < 0) fault("ptrace");
        if (waitpid(child, status, 0) < 0) fault("waitpid");
        *is_done = WIFEXITED(*status) || WIFSIGNALED(*status);
        if (*is_done || WSTOPSIG(*status) == (SIGTRAP | 0x80)) return;
        passed = WSTOPSIG(*status) == SIGTRAP ? 0 : WSTOPSIG(*status);
    }
}

int main(int argc, char **argv)
{
    if (argc < 4) return 102;
    const char *mode = argv[1];
    long wanted = atol(argv[2]), count = 0;
    int status, is_done, is_found = 0;
    pid_t child = fork();
    if (child < 0) fault("fork");
    if (child == 0) {
        ptrace(PTRACE_TRACEME, 0, NULL, NULL);
        raise(SIGSTOP);
        execv(argv[3], argv + 3);
        fault(argv[3]);
    }
    if (waitpid(child, &status, 0) < 0) fault("waitpid");
    if (ptrace(PTRACE_SETOPTIONS, child, NULL, PTRACE_O_TRACESYSGOOD | PTRACE_O_EXITKILL) < 0)
        fault("ptrace");
    for (;;) {
        struct user_regs_struct call;
        run(child, &is_done, &status);
        if (is_done) break;
        if (ptrace(PTRACE_GETREGS, child, NULL, &call) < 0) fault("ptrace");
        int is_wanted = changes(&call) && ++count == wanted;
        is_found |= is_wanted;
        if (is_wanted && (strcmp(mode, "before") == 0 || (strcmp(mode, "half") == 0 && !writes((long)call.orig_rax))))
            end(child);
        if (is_wanted) {
            if (strcmp(mode, "half") == 0) call.rdx /= 2;
            else call.orig_rax = (unsigned long long)-1;
            if (ptrace(PTRACE_SETREGS, child, NULL, &call) < 0) fault("ptrace");
        }
        run(child, &is_done, &status);
        if (is_done) break;
        if (is_wanted && strcmp(mode, "half") == 0) end(child);
        if (is_wanted) {
            if (ptrace(PTRACE_GETREGS, child, NULL, &call) < 0) fault("ptrace");
            call.rax = (unsigned long long)-EIO;
            if (ptrace(PTRACE_SETREGS, child, NULL, &call) < 0) fault("ptrace");
        }
    }
    if (!is_found) return 101;
    return WIFEXITED(status) ? WEXITSTATUS(status) : 103;
}
