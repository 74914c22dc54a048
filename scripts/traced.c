/* Runs a program, notes each call that it makes of the system, and makes some of them fail. For scripts/try-faults and scripts/try-power-loss.

   usage: traced LOG SECONDS [NUMBER:WAY:VALUE:TIMES:BYTES]... -- PROGRAM [WORD]...

   Calls are counted from 1, the first opening of the null device, with which liq begins; what the loader does before is left alone.
   A line of the log is one call: its number, name, file, place, count, result and, where it wrote, its bytes as hexadecimal digits,
   with a tab between two of them. The file is the one behind a descriptor, or the path that was given; the place is an offset, a new
   length, or the flags of an opening.

   The call of that NUMBER fails in one of these ways, and so do the next ones of its name on its file, TIMES in all, 0 for each one:
     error E   it is not made, and the program is told the fault E
     told E    it is made, and the program is told the fault E
     short N   N bytes fewer are asked for, where that leaves one
     part E    so many BYTES alone are asked for, and the next call of its name on its file is told the fault E
     none 0    it is not made, and the program is told that it moved no byte
   The others have no use for BYTES. Of brk, which tells no fault, the break stays where it is.

   What TRACED_PRELOAD says is put in front of the program's C library. It ends with the program's status, 128 and the signal's number
   where a signal ended it, and with 124 where SECONDS have passed. */
#define _GNU_SOURCE
#include <errno.h>
#include <fcntl.h>
#include <limits.h>
#include <signal.h>
#include <stdint.h>
#include <stdio.h>
#include <stdlib.h>
#include <string.h>
#include <sys/ptrace.h>
#include <sys/syscall.h>
#include <sys/uio.h>
#include <sys/user.h>
#include <sys/wait.h>
#include <unistd.h>
#ifndef __x86_64__
#error "the registers of a call are known here for x86-64 alone"
#endif

enum file { NO_FILE, DESCRIPTOR, PATH, PATH_AT };
enum bytes { NO_BYTES, GIVES, TAKES, GIVES_PARTS };
struct kind {
    long number;
    const char *name;
    enum file file;
    enum bytes bytes;
    int place; /* the argument that has it, or -1; -2 where it is the descriptor's position */
};
static const struct kind kinds[] = {
    {SYS_read, "read", DESCRIPTOR, TAKES, -1},
    {SYS_write, "write", DESCRIPTOR, GIVES, -2},
    {SYS_pread64, "pread", DESCRIPTOR, TAKES, 3},
    {SYS_pwrite64, "pwrite", DESCRIPTOR, GIVES, 3},
    {SYS_writev, "writev", DESCRIPTOR, GIVES_PARTS, -2},
    {SYS_pwritev, "pwritev", DESCRIPTOR, GIVES_PARTS, 3},
    {SYS_sendto, "sendto", DESCRIPTOR, GIVES, -1},
    {SYS_sendmsg, "sendmsg", DESCRIPTOR, NO_BYTES, -1},
    {SYS_open, "open", PATH, NO_BYTES, 1},
    {SYS_openat, "openat", PATH_AT, NO_BYTES, 2},
    {SYS_close, "close", DESCRIPTOR, NO_BYTES, -1},
    {SYS_stat, "stat", PATH, NO_BYTES, -1},
    {SYS_lstat, "lstat", PATH, NO_BYTES, -1},
    {SYS_fstat, "fstat", DESCRIPTOR, NO_BYTES, -1},
    {SYS_newfstatat, "fstatat", PATH_AT, NO_BYTES, -1},
    {SYS_statx, "statx", PATH_AT, NO_BYTES, -1},
    {SYS_readlink, "readlink", PATH, NO_BYTES, -1},
    {SYS_readlinkat, "readlinkat", PATH_AT, NO_BYTES, -1},
    {SYS_access, "access", PATH, NO_BYTES, -1},
    {SYS_lseek, "lseek", DESCRIPTOR, NO_BYTES, 1},
    {SYS_flock, "flock", DESCRIPTOR, NO_BYTES, -1},
    {SYS_fcntl, "fcntl", DESCRIPTOR, NO_BYTES, -1},
    {SYS_fsync, "fsync", DESCRIPTOR, NO_BYTES, -1},
    {SYS_fdatasync, "fdatasync", DESCRIPTOR, NO_BYTES, -1},
    {SYS_syncfs, "syncfs", DESCRIPTOR, NO_BYTES, -1},
    {SYS_ftruncate, "ftruncate", DESCRIPTOR, NO_BYTES, 1},
    {SYS_truncate, "truncate", PATH, NO_BYTES, 1},
    {SYS_fallocate, "fallocate", DESCRIPTOR, NO_BYTES, 2},
    {SYS_copy_file_range, "copy_file_range", DESCRIPTOR, NO_BYTES, -1},
    {SYS_sendfile, "sendfile", DESCRIPTOR, NO_BYTES, -1},
    {SYS_rename, "rename", PATH, NO_BYTES, -1},
    {SYS_renameat, "renameat", PATH_AT, NO_BYTES, -1},
    {SYS_renameat2, "renameat2", PATH_AT, NO_BYTES, -1},
    {SYS_link, "link", PATH, NO_BYTES, -1},
    {SYS_linkat, "linkat", PATH_AT, NO_BYTES, -1},
    {SYS_symlink, "symlink", PATH, NO_BYTES, -1},
    {SYS_unlink, "unlink", PATH, NO_BYTES, -1},
    {SYS_unlinkat, "unlinkat", PATH_AT, NO_BYTES, -1},
    {SYS_mmap, "mmap", NO_FILE, NO_BYTES, -1},
    {SYS_mremap, "mremap", NO_FILE, NO_BYTES, -1},
    {SYS_munmap, "munmap", NO_FILE, NO_BYTES, -1},
    {SYS_brk, "brk", NO_FILE, NO_BYTES, -1},
    {SYS_getrandom, "getrandom", NO_FILE, NO_BYTES, -1},
    {SYS_exit_group, "exit_group", NO_FILE, NO_BYTES, -1},
};

enum way { ERROR, TOLD, SHORT, PART, NONE };
static const char *const ways[] = {"error", "told", "short", "part", "none"};
struct fault {
    long number;
    enum way way;
    long value, bytes;
    long left; /* how many calls it still meets; -1 for all */
    int begun;
    char name[32], file[PATH_MAX];
};
#define FAULTS_MOST 8
static struct fault faults[FAULTS_MOST];
static int fault_count;

struct task {
    pid_t id;
    int noted;
    const struct kind *kind;
    struct user_regs_struct before;
    long number, place;
    enum way way;
    struct fault *fault;
    char name[32], file[PATH_MAX];
};
#define TASKS_MOST 64
static struct task tasks[TASKS_MOST];

static FILE *noted;
static long last_number;
static pid_t traced;
static volatile sig_atomic_t is_over;

static void die(const char *what) {
    fprintf(stderr, "traced: %s: %s\n", what, strerror(errno));
    exit(125);
}

static void end_it(int number) {
    (void)number;
    is_over = 1;
    kill(traced, SIGKILL);
}

static struct task *task_of(pid_t id) {
    struct task *unused = 0;
    for (int at = 0; at < TASKS_MOST; at++) {
        if (tasks[at].id == id) return &tasks[at];
        if (!tasks[at].id && !unused) unused = &tasks[at];
    }
    if (!unused) die("too many threads");
    memset(unused, 0, sizeof *unused);
    unused->id = id;
    return unused;
}

static size_t copy_from(pid_t id, unsigned long from, void *to, size_t count) {
    struct iovec here = {to, count}, there = {(void *)from, count};
    ssize_t got = process_vm_readv(id, &here, 1, &there, 1, 0);
    if (got < 0 && (errno == EPERM || errno == ENOSYS)) die("the program's memory can't be read");
    return got < 0 ? 0 : (size_t)got;
}

/* A path may end shortly before memory that may not be read. */
static void copy_path(pid_t id, unsigned long from, char *to, size_t most) {
    for (size_t at = 0; at < most - 1; at++)
        if (copy_from(id, from + at, to + at, 1) != 1 || !to[at]) {
            to[at] = 0;
            return;
        }
    to[most - 1] = 0;
}

static unsigned long argument(const struct user_regs_struct *at, int which) {
    const unsigned long all[] = {at->rdi, at->rsi, at->rdx, at->r10, at->r8, at->r9};
    return all[which];
}

static void name_descriptor(pid_t id, long descriptor, char *to) {
    static const char *const streams[] = {"stdin", "stdout", "stderr"};
    if (descriptor >= 0 && descriptor < 3) {
        strcpy(to, streams[descriptor]);
        return;
    }
    char link[64];
    snprintf(link, sizeof link, "/proc/%d/fd/%ld", id, descriptor);
    ssize_t got = readlink(link, to, PATH_MAX - 1);
    to[got < 0 ? 0 : got] = 0;
    /* As the program names it. */
    snprintf(link, sizeof link, "/proc/%d/status", id);
    if (!strcmp(to, link)) strcpy(to, "/proc/self/status");
}

static void name_file(struct task *task) {
    const struct user_regs_struct *at = &task->before;
    task->file[0] = 0;
    switch (task->kind ? task->kind->file : NO_FILE) {
        case DESCRIPTOR: name_descriptor(task->id, (int)at->rdi, task->file); break;
        case PATH: copy_path(task->id, at->rdi, task->file, PATH_MAX); break;
        case PATH_AT:
            copy_path(task->id, at->rsi, task->file, PATH_MAX);
            if (!task->file[0]) name_descriptor(task->id, (int)at->rdi, task->file);
            break;
        case NO_FILE: break;
    }
    for (char *letter = task->file; *letter; letter++)
        if (*letter == '\t' || *letter == '\n') *letter = '?';
}

static long position_of(pid_t id, long descriptor) {
    char name[64], line[128];
    long place = -1;
    snprintf(name, sizeof name, "/proc/%d/fdinfo/%ld", id, descriptor);
    FILE *told = fopen(name, "r");
    if (!told) return -1;
    while (fgets(line, sizeof line, told))
        if (sscanf(line, "pos: %ld", &place) == 1) break;
    fclose(told);
    return place;
}

static long place_of(const struct task *task) {
    if (!task->kind || task->kind->place == -1) return -1;
    if (task->kind->place == -2) return position_of(task->id, (int)task->before.rdi);
    return (long)argument(&task->before, task->kind->place);
}

/* The fault that this call meets, if any. */
static struct fault *fault_of(struct task *task) {
    for (int at = 0; at < fault_count; at++) {
        struct fault *fault = &faults[at];
        if (fault->number == task->number) {
            fault->begun = 1;
            strcpy(fault->name, task->name);
            strcpy(fault->file, task->file);
        }
        if (!fault->begun || !fault->left || strcmp(fault->name, task->name) || strcmp(fault->file, task->file)) continue;
        if (fault->left > 0) fault->left--;
        return fault;
    }
    return 0;
}

static void set(pid_t id, struct user_regs_struct *to) {
    if (ptrace(PTRACE_SETREGS, id, 0, to) < 0 && errno != ESRCH) die("the registers can't be set");
}

static int is_break(const struct task *task) {
    return task->kind && task->kind->number == SYS_brk;
}

/* Lets the call be another one than what was asked for. */
static void spoil(struct task *task) {
    struct user_regs_struct changed = task->before;
    struct fault *fault = task->fault = fault_of(task);
    if (!fault) return;
    int moves = task->kind && (task->kind->bytes == GIVES || task->kind->bytes == TAKES);
    task->way = fault->way;
    switch (fault->way) {
        case SHORT:
            if (moves && (long)changed.rdx > fault->value) changed.rdx -= fault->value;
            break;
        case PART:
            if (moves) changed.rdx = fault->bytes;
            fault->way = ERROR;
            break;
        case ERROR:
            if (is_break(task)) {
                changed.rdi = 0;
                break;
            }
            /* fallthrough */
        case NONE: changed.orig_rax = -1; break;
        case TOLD: break;
    }
    set(task->id, &changed);
}

static void note_bytes(const struct task *task, long result) {
    unsigned char *bytes;
    size_t count = 0;
    if (!task->kind || result <= 0) return;
    if (task->kind->bytes == GIVES) {
        bytes = malloc(result);
        count = copy_from(task->id, task->before.rsi, bytes, result);
    } else if (task->kind->bytes == GIVES_PARTS) {
        struct iovec parts[IOV_MAX];
        size_t many = task->before.rdx < IOV_MAX ? task->before.rdx : IOV_MAX;
        many = copy_from(task->id, task->before.rsi, parts, many * sizeof *parts) / sizeof *parts;
        bytes = malloc(result);
        for (size_t at = 0; at < many && count < (size_t)result; at++) {
            size_t rest = result - count, here = parts[at].iov_len < rest ? parts[at].iov_len : rest;
            count += copy_from(task->id, (unsigned long)parts[at].iov_base, bytes + count, here);
        }
    } else {
        return;
    }
    for (size_t at = 0; at < count; at++) fprintf(noted, "%02x", bytes[at]);
    free(bytes);
}

static void note(const struct task *task, long result) {
    long count = task->kind && task->kind->bytes ? (long)task->before.rdx : -1;
    fprintf(noted, "%ld\t%s\t%s\t%ld\t%ld\t%ld\t", task->number, task->name, task->file, task->place, count, result);
    note_bytes(task, result);
    putc('\n', noted);
}

static void enter(struct task *task) {
    if (ptrace(PTRACE_GETREGS, task->id, 0, &task->before) < 0) return;
    task->noted = 0;
    task->kind = 0;
    task->fault = 0;
    for (size_t at = 0; at < sizeof kinds / sizeof *kinds; at++)
        if (kinds[at].number == (long)task->before.orig_rax) task->kind = &kinds[at];
    if (!last_number && !(task->kind && task->kind->number == SYS_openat)) return;
    name_file(task);
    if (!last_number && strcmp(task->file, "/dev/null")) return;
    if (task->kind)
        strcpy(task->name, task->kind->name);
    else
        snprintf(task->name, sizeof task->name, "call %ld", (long)task->before.orig_rax);
    task->number = ++last_number;
    task->noted = 1;
    task->place = place_of(task);
    spoil(task);
    /* Nothing comes behind it. */
    if (task->kind && task->kind->number == SYS_exit_group) note(task, 0);
}

static void leave(struct task *task) {
    struct user_regs_struct after;
    if (!task->noted || ptrace(PTRACE_GETREGS, task->id, 0, &after) < 0) return;
    task->noted = 0;
    if (task->fault) {
        if ((task->way == ERROR && !is_break(task)) || task->way == TOLD) after.rax = -task->fault->value;
        if (task->way == NONE) after.rax = 0;
        /* A program may rely on it that a call changes no argument. */
        after.rdi = task->before.rdi;
        after.rdx = task->before.rdx;
        after.orig_rax = task->before.orig_rax;
        set(task->id, &after);
    }
    note(task, (long)after.rax);
}

static int status_of(int status) {
    return is_over ? 124 : WIFSIGNALED(status) ? 128 + WTERMSIG(status) : WEXITSTATUS(status);
}

static int follow(void) {
    int status;
    long options = PTRACE_O_TRACESYSGOOD | PTRACE_O_EXITKILL | PTRACE_O_TRACECLONE | PTRACE_O_TRACEEXEC;
    if (waitpid(traced, &status, 0) < 0 || !WIFSTOPPED(status)) die("the program didn't begin");
    if (ptrace(PTRACE_SETOPTIONS, traced, 0, options) < 0) die("the program can't be traced");
    ptrace(PTRACE_SYSCALL, traced, 0, 0);
    for (;;) {
        pid_t id = waitpid(-1, &status, __WALL);
        if (id < 0 && errno == EINTR) continue;
        if (id < 0) die("the program is gone");
        struct task *task = task_of(id);
        if (WIFEXITED(status) || WIFSIGNALED(status)) {
            task->id = 0;
            if (id == traced) return status_of(status);
            continue;
        }
        long number = 0;
        if (WSTOPSIG(status) == (SIGTRAP | 0x80)) {
            struct __ptrace_syscall_info told;
            if (ptrace(PTRACE_GET_SYSCALL_INFO, id, sizeof told, &told) < 0) {
                if (errno == ESRCH) continue; /* a thread whose process ends meanwhile */
                die("the system does not tell a call's begin");
            }
            if (told.op == PTRACE_SYSCALL_INFO_ENTRY)
                enter(task);
            else
                leave(task);
        } else if (!(status >> 16) && WSTOPSIG(status) != SIGSTOP && WSTOPSIG(status) != SIGTRAP) {
            number = WSTOPSIG(status);
        }
        ptrace(PTRACE_SYSCALL, id, 0, number);
    }
}

static void read_fault(const char *words) {
    char way[16];
    if (fault_count == FAULTS_MOST) die("too many faults");
    struct fault *fault = &faults[fault_count++];
    if (sscanf(words, "%ld:%15[a-z]:%ld:%ld:%ld", &fault->number, way, &fault->value, &fault->left, &fault->bytes) != 5)
        die("no fault");
    if (!fault->left) fault->left = -1;
    int is_known = 0;
    for (int at = 0; at < 5; at++)
        if (!strcmp(ways[at], way)) fault->way = at, is_known = 1;
    if (!is_known) die("no way to fail");
    if (fault->way == PART && fault->left > 0) fault->left++;
}

int main(int count, char **words) {
    int at = 3;
    if (count < 5) die("usage");
    noted = fopen(words[1], "we");
    if (!noted) die(words[1]);
    for (; at < count && strcmp(words[at], "--"); at++) read_fault(words[at]);
    traced = fork();
    if (traced < 0) die("fork");
    if (!traced) {
        const char *front = getenv("TRACED_PRELOAD");
        if (front && *front) setenv("LD_PRELOAD", front, 1);
        unsetenv("TRACED_PRELOAD");
        if (ptrace(PTRACE_TRACEME, 0, 0, 0) < 0) _exit(126);
        raise(SIGSTOP);
        execv(words[at + 1], words + at + 1);
        _exit(127);
    }
    signal(SIGALRM, end_it);
    alarm(atoi(words[2]));
    int status = follow();
    if (fclose(noted)) die(words[1]);
    return status;
}
