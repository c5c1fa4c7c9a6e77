// Runs a program and has its reads and writes move fewer bytes than it asked for, as a system may at any time.
//
//     shorten COUNT_FILE WHICH MOST PROGRAM [WORD..]
//
// Of the reads and writes that the program makes after it first opens /dev/null, the one numbered WHICH, or each where WHICH is 0, is asked for MOST
// bytes at most, or for half of what it wants where MOST is 0 (one byte stays one). How many were counted is written to COUNT_FILE. Linux on x86-64.
#include <signal.h>
#include <stdio.h>
#include <stdlib.h>
#include <string.h>
#include <sys/ptrace.h>
#include <sys/user.h>
#include <sys/wait.h>
#include <unistd.h>

enum { READ = 0, WRITE = 1, PREAD = 17, PWRITE = 18, READV = 19, WRITEV = 20, OPENAT = 257 };

static int opens_null(pid_t child, unsigned long long at) {
    char name[16] = {0};
    for (int i = 0; i < 2; i++) {
        long word = ptrace(PTRACE_PEEKDATA, child, at + 8 * i, 0);
        memcpy(name + 8 * i, &word, 8);
    }
    return memcmp(name, "/dev/null", 10) == 0;
}

static unsigned long long fewer(unsigned long long count, unsigned long long most) {
    if (most == 0)
        return (count + 1) / 2;
    return count < most ? count : most;
}

int main(int argc, char **argv) {
    if (argc < 5)
        return 125;
    unsigned long which = strtoul(argv[2], 0, 10), most = strtoul(argv[3], 0, 10), counted = 0;
    pid_t child = fork();
    if (child == 0) {
        ptrace(PTRACE_TRACEME, 0, 0, 0);
        execv(argv[4], argv + 4);
        _exit(126);
    }
    int status, begun = 0, entering = 1;
    waitpid(child, &status, 0);
    ptrace(PTRACE_SETOPTIONS, child, 0, PTRACE_O_TRACESYSGOOD | PTRACE_O_EXITKILL);
    for (int signal = 0;;) {
        ptrace(PTRACE_SYSCALL, child, 0, signal);
        waitpid(child, &status, 0);
        if (WIFEXITED(status) || WIFSIGNALED(status))
            break;
        signal = 0;
        if (WSTOPSIG(status) != (SIGTRAP | 0x80)) {
            signal = WSTOPSIG(status);
            continue;
        }
        if (entering) {
            struct user_regs_struct regs;
            ptrace(PTRACE_GETREGS, child, 0, &regs);
            if (regs.orig_rax == OPENAT && opens_null(child, regs.rsi))
                begun = 1;
            if (begun && (regs.orig_rax == READV || regs.orig_rax == WRITEV)) {
                kill(child, 9);
                fprintf(stderr, "shorten: a readv or writev\n");
                return 124;
            }
            if (begun && (regs.orig_rax == READ || regs.orig_rax == WRITE || regs.orig_rax == PREAD || regs.orig_rax == PWRITE)) {
                counted++;
                if (which == 0 || counted == which) {
                    regs.rdx = fewer(regs.rdx, most);
                    ptrace(PTRACE_SETREGS, child, 0, &regs);
                }
            }
        }
        entering = !entering;
    }
    FILE *out = fopen(argv[1], "w");
    fprintf(out, "%lu\n", counted);
    fclose(out);
    if (WIFSIGNALED(status))
        return 128 + WTERMSIG(status);
    return WEXITSTATUS(status);
}
