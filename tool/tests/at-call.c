/* at-call N ACTION COMMAND...: runs a command and, when it is about to make its N-th system call, acts.
 * ACTION is kill; or fail: the call is not made and answers EIO; or the path of a file that is then cut to nothing.
 * Prints how many calls were made, and the status. */
#define _GNU_SOURCE
#include <errno.h>
#include <signal.h>
#include <stdio.h>
#include <stdlib.h>
#include <string.h>
#include <sys/ptrace.h>
#include <sys/user.h>
#include <sys/wait.h>
#include <unistd.h>

static void fail(const char *what) {
    perror(what);
    exit(99);
}

/* Has the call not made, or, when it returns, answer an error. */
static void set_register(pid_t child, int is_entry) {
    struct user_regs_struct registers;
    if (ptrace(PTRACE_GETREGS, child, NULL, &registers) != 0) fail("registers");
    if (is_entry)
        registers.orig_rax = (unsigned long long)-1;
    else
        registers.rax = (unsigned long long)-EIO;
    if (ptrace(PTRACE_SETREGS, child, NULL, &registers) != 0) fail("registers");
}

static void act(pid_t child, const char *action) {
    if (strcmp(action, "kill") == 0)
        kill(child, SIGKILL);
    else if (strcmp(action, "fail") == 0)
        set_register(child, 1);
    else if (truncate(action, 0) != 0)
        fail(action);
}

int main(int argc, char **argv) {
    if (argc < 4) return 99;
    long wanted = atol(argv[1]), calls = 0;
    int status, entering = 1;
    pid_t child = fork();
    if (child < 0) fail("fork");
    if (child == 0) {
        ptrace(PTRACE_TRACEME, 0, NULL, NULL);
        raise(SIGSTOP);
        execv(argv[3], argv + 3);
        _exit(98);
    }
    if (waitpid(child, &status, 0) < 0) fail("waitpid");
    if (ptrace(PTRACE_SETOPTIONS, child, NULL, (void *)(PTRACE_O_TRACESYSGOOD | PTRACE_O_EXITKILL)) != 0)
        fail("ptrace");
    for (long passed = 0;;) {
        ptrace(PTRACE_SYSCALL, child, NULL, (void *)passed); /* a killed child cannot go on, and is waited for */
        if (waitpid(child, &status, 0) < 0) fail("waitpid");
        if (WIFEXITED(status) || WIFSIGNALED(status)) break;
        int is_call = WSTOPSIG(status) == (SIGTRAP | 0x80);
        passed = is_call || WSTOPSIG(status) == SIGTRAP ? 0 : WSTOPSIG(status);
        if (is_call && entering && ++calls == wanted) act(child, argv[2]);
        if (is_call && !entering && calls == wanted && strcmp(argv[2], "fail") == 0) set_register(child, 0);
        if (is_call) entering = !entering;
    }
    printf("%ld %d\n", calls, WIFEXITED(status) ? WEXITSTATUS(status) : 128 + WTERMSIG(status));
    return 0;
}
