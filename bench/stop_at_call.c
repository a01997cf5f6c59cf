// Runs a program, and at its system call of this number, from 1 (none if that is 0), kills it before the call is made; or, with
// a number of errno.h in place of `kill`, has that call not made and fail with this error, unless it is brk(2), which has no such
// errors, or exit_group(2). Linux, x86-64; a program with one thread.
//
//   stop_at_call COUNT NUMBER kill|ERRNO PROGRAM WORD..
//
// The file COUNT gets how many calls the program entered. The status is that of the program, and 128 and its number for a signal.
#include <stdio.h>
#include <stdlib.h>
#include <string.h>
#include <sys/ptrace.h>
#include <sys/syscall.h>
#include <sys/user.h>
#include <sys/wait.h>
#include <linux/ptrace.h>
#include <signal.h>
#include <unistd.h>

static int fail(const char *what) {
    perror(what);
    return 125;
}

// Has the call that the program enters not made, or, as it leaves it, fail with this error.
static void strike(pid_t child, int number, int leaves) {
    struct user_regs_struct registers;
    ptrace(PTRACE_GETREGS, child, 0, &registers);
    if (leaves)
        registers.rax = -(long)number;
    else
        registers.orig_rax = -1;
    ptrace(PTRACE_SETREGS, child, 0, &registers);
}

int main(int count, char **words) {
    if (count < 5)
        return 125;
    long wanted = atol(words[2]), calls = 0;
    int number = strcmp(words[3], "kill") ? atoi(words[3]) : 0, status, is_struck = 0;
    pid_t child = fork();
    if (child == 0) {
        ptrace(PTRACE_TRACEME, 0, 0, 0);
        execv(words[4], words + 4);
        _exit(fail("execv"));
    }
    if (child < 0 || waitpid(child, &status, 0) < 0 || !WIFSTOPPED(status))
        return fail("the program did not start");
    ptrace(PTRACE_SETOPTIONS, child, 0, PTRACE_O_TRACESYSGOOD | PTRACE_O_EXITKILL);
    for (int signal = 0;;) {
        ptrace(PTRACE_SYSCALL, child, 0, signal);
        if (waitpid(child, &status, 0) < 0)
            return fail("waitpid");
        if (!WIFSTOPPED(status))
            break;
        signal = WSTOPSIG(status);
        if (signal != (SIGTRAP | 0x80))
            continue;
        signal = 0;
        struct __ptrace_syscall_info call;
        if (ptrace(PTRACE_GET_SYSCALL_INFO, child, sizeof call, &call) <= 0)
            return fail("PTRACE_GET_SYSCALL_INFO");
        if (call.op == PTRACE_SYSCALL_INFO_ENTRY && ++calls == wanted) {
            is_struck = number != 0 && call.entry.nr != SYS_brk && call.entry.nr != SYS_exit_group;
            if (number == 0)
                kill(child, SIGKILL);
            else if (is_struck)
                strike(child, number, 0);
        } else if (call.op == PTRACE_SYSCALL_INFO_EXIT && is_struck) {
            strike(child, number, 1);
            is_struck = 0;
        }
    }
    FILE *file = fopen(words[1], "w");
    if (!file || fprintf(file, "%ld\n", calls) < 0 || fclose(file))
        return fail(words[1]);
    return WIFSIGNALED(status) ? 128 + WTERMSIG(status) : WEXITSTATUS(status);
}
