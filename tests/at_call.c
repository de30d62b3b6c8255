/* Starts a static program, into which no library can be loaded, and changes one of its calls of the C library: that of number N (from 1)
   after it came to `main`, of calls of all functions that are named.

       at_call refuse|shorten N TOLD MAIN FUNCTION=ADDRESS .. -- PROGRAM WORD ..

   refuse: an allocation answers that there is no memory. shorten: of a write to a place half of the bytes are written, one at least. In
   the file TOLD is at the end how many calls there were, up to N, where the program came to its end by itself. MAIN and the addresses
   are those of the program's table of names, in hexadecimal digits. The exit status is the program's. What it starts is not looked at.

   Each function has a breakpoint. Where it begins with `endbr64`, which does nothing, the call goes on behind that; else the
   instruction is put back, done alone, and the breakpoint set again. */
#define _GNU_SOURCE
#include <errno.h>
#include <fcntl.h>
#include <signal.h>
#include <stdio.h>
#include <stdlib.h>
#include <string.h>
#include <sys/ptrace.h>
#include <sys/user.h>
#include <sys/wait.h>
#include <unistd.h>

#define MOST 16
#define ENDBR64 0xfa1e0ff3UL

struct function {
    const char *name;
    unsigned long at;
    long word;
};

static struct function functions[MOST + 1];
static int count;
static pid_t child;

static void fail(const char *what) {
    perror(what);
    if (child > 0) kill(child, SIGKILL);
    exit(124);
}

static long word_at(unsigned long at) {
    errno = 0;
    long word = ptrace(PTRACE_PEEKTEXT, child, at, 0);
    if (errno) fail("at_call: peek");
    return word;
}

static void set_word(unsigned long at, long word) {
    if (ptrace(PTRACE_POKETEXT, child, at, word)) fail("at_call: poke");
}

static void set_breakpoint(struct function *one) {
    one->word = word_at(one->at);
    set_word(one->at, (one->word & ~0xffL) | 0xcc);
}

/* What is added to the addresses of the table: where the program was loaded, if it may stand anywhere. */
static unsigned long base_of(const char *program) {
    unsigned char head[18];
    char path[64], line[8192], loaded[4096];
    unsigned long base = 0;
    int file = open(program, O_RDONLY);
    if (file < 0 || read(file, head, sizeof head) != sizeof head || !realpath(program, loaded)) fail(program);
    close(file);
    if (head[16] == 2) return 0;
    snprintf(path, sizeof path, "/proc/%d/maps", (int)child);
    FILE *maps = fopen(path, "r");
    if (!maps) fail(path);
    /* The first part of the file: other memory may stand below it. */
    while (!base && fgets(line, sizeof line, maps))
        if (strstr(line, loaded)) sscanf(line, "%lx-", &base);
    fclose(maps);
    if (!base) fail(path);
    return base;
}

/* Goes on, with a signal or without, until the child stops or ends. */
static int go_on(int request, int with) {
    int status;
    if (ptrace(request, child, 0, with)) fail("at_call: continue");
    while (waitpid(child, &status, 0) < 0)
        if (errno != EINTR) fail("at_call: wait");
    return status;
}

static struct function *function_at(unsigned long at, int first, int last) {
    for (int place = first; place < last; place++)
        if (functions[place].at == at) return &functions[place];
    return NULL;
}

int main(int argc, char **argv) {
    int status, rest = 5, shortens = argc > 1 && !strcmp(argv[1], "shorten");
    long number = 0, wanted = argc > 2 ? atol(argv[2]) : 0;
    for (; rest < argc && strcmp(argv[rest], "--"); rest++) {
        char *sign = strchr(argv[rest], '=');
        if (!sign || count == MOST) return 124;
        *sign = 0;
        functions[count++] = (struct function){argv[rest], strtoul(sign + 1, NULL, 16), 0};
    }
    if (rest + 1 >= argc || !count) return 124;
    /* `main` is the last one. */
    functions[count] = (struct function){"main", strtoul(argv[4], NULL, 16), 0};
    child = fork();
    if (child < 0) fail("at_call: fork");
    if (!child) {
        ptrace(PTRACE_TRACEME, 0, 0, 0);
        execv(argv[rest + 1], argv + rest + 1);
        _exit(124);
    }
    while (waitpid(child, &status, 0) < 0)
        if (errno != EINTR) fail("at_call: wait");
    if (!WIFSTOPPED(status)) return 124;
    if (ptrace(PTRACE_SETOPTIONS, child, 0, PTRACE_O_EXITKILL)) fail("at_call: options");
    unsigned long base = base_of(argv[rest + 1]);
    for (int place = 0; place <= count; place++) functions[place].at += base;
    set_breakpoint(&functions[count]);
    for (int with = 0; status = go_on(PTRACE_CONT, with), WIFSTOPPED(status);) {
        struct user_regs_struct now;
        with = WSTOPSIG(status);
        if (with != SIGTRAP) continue;
        if (ptrace(PTRACE_GETREGS, child, 0, &now)) fail("at_call: registers");
        struct function *met = function_at(now.rip - 1, 0, count + 1);
        if (!met) continue;
        with = 0;
        now.rip--;
        if (met == &functions[count]) {
            set_word(met->at, met->word);
            for (int place = 0; place < count; place++) set_breakpoint(&functions[place]);
        } else {
            int is_it = ++number == wanted;
            if (is_it)
                for (int place = 0; place < count; place++) set_word(functions[place].at, functions[place].word);
            if (is_it && shortens && now.rdx > 1) now.rdx /= 2;
            if (is_it && !shortens) {
                now.rax = strcmp(met->name, "posix_memalign") ? 0 : ENOMEM;
                now.rip = word_at(now.rsp);
                now.rsp += 8;
            } else if (!is_it && (met->word & 0xffffffffUL) == ENDBR64) {
                now.rip += 4;
            } else if (!is_it) {
                set_word(met->at, met->word);
                if (ptrace(PTRACE_SETREGS, child, 0, &now)) fail("at_call: registers");
                /* Where a signal comes before it the call is met once more. */
                status = go_on(PTRACE_SINGLESTEP, 0);
                if (!WIFSTOPPED(status)) break;
                if (WSTOPSIG(status) != SIGTRAP) with = WSTOPSIG(status), number--;
                set_word(met->at, (met->word & ~0xffL) | 0xcc);
                continue;
            }
        }
        if (ptrace(PTRACE_SETREGS, child, 0, &now)) fail("at_call: registers");
    }
    if (WIFSIGNALED(status)) {
        signal(WTERMSIG(status), SIG_DFL);
        raise(WTERMSIG(status));
        return 128 + WTERMSIG(status);
    }
    FILE *told = fopen(argv[3], "w");
    if (!told || fprintf(told, "%ld\n", number) < 0 || fclose(told)) fail(argv[3]);
    return WEXITSTATUS(status);
}
