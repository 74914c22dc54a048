/* Makes a wrong program of liq: put in front of its C library, it lets calls do something else than what they are asked for. What
   WRONG says decides which. With it a trial is seen to fail. For the --self-test of scripts/try-files, try-faults,
   try-power-loss, try-kills and try-refused-memory.

   no-datasync       fdatasync does nothing
   half-datasync     every second fdatasync does nothing
   late-datasync     fdatasync is made behind the next reply
   deaf-datasync     fdatasync tells no fault
   no-serve-sync     fdatasync does nothing where the word is serve
   no-folder-sync    fsync of a folder does nothing
   deaf-folder-sync  fsync tells no fault
   other-folder-sync fsync of a folder syncs the one around it
   near-folder-sync  fsync of a folder syncs the current one
   no-lock           flock does nothing
   deaf-lock         flock tells no fault
   late-lock         flock is made behind the first read of its file
   truncating        a file that is opened to be written is emptied
   open-mode         a file is made with the mode 0644
   through-links     a file may be made behind a link, and where there is one already
   short-as-whole    a write that takes a part is told as whole
   deaf-write        a write tells no fault
   gate-first        the gate of a record is opened before the record is written
   other-file        what is written to left.liq goes to right.liq
   deaf-look         where the system tells nothing of a file it is told to be the user's own
   no-kinds          each file is told to be a regular one
   no-modes          no file is told to be one that others may write
   no-owners         each file is told to be the user's own
   no-right-owners   right.liq is told to be the user's own
   apart-streams     no standard stream is told to be one of the two files
   two-files         right.liq is told to be another file than left.liq, and flock does nothing
   takes-rights      where a right is missing, it is taken
   deaf-input        a fault of the input is told as its end
   deaf-output       a fault of the output is told as all written
   deaf-again        EAGAIN is told as the end of the input, or as all written
   kept-replies      replies are written at the end
   early-replies     a reply is written before what is written to the two files before it
   rewriting         a file that is there is emptied and written anew when it is opened
   lazy              what is written to the two files goes there once eight writes have come, or at the end
   lost-record       where the program ends with 7 its last write of the two files is taken back
   late-refusal      the last reply before `no memory` is not written
   other-status      the program ends with 5 where it should with 7 */
#define _GNU_SOURCE
#include <dlfcn.h>
#include <errno.h>
#include <fcntl.h>
#include <stdarg.h>
#include <stdlib.h>
#include <string.h>
#include <sys/stat.h>
#include <sys/syscall.h>
#include <unistd.h>

static int is(const char *way) {
    const char *wrong = getenv("WRONG");
    return wrong && !strcmp(wrong, way);
}

static int is_serve;

/* The C library of GNU hands a program's words to what begins before it. */
__attribute__((constructor)) static void begin(int count, char **words) {
    is_serve = count > 1 && !strcmp(words[1], "serve");
}

static int left = -1, right = -1;
static int last_file = -1;
static off_t last_place;

#define RECORD_BYTES 129

/* ---- writes that wait */

#define LAZY_MOST 8
static struct {
    int fd;
    off_t at;
    size_t count;
    char *bytes;
} waiting[LAZY_MOST];
static int waiting_count;

static void write_waiting(void) {
    for (int at = 0; at < waiting_count; at++) {
        syscall(SYS_pwrite64, waiting[at].fd, waiting[at].bytes, waiting[at].count, waiting[at].at);
        free(waiting[at].bytes);
    }
    waiting_count = 0;
}

static void wait_with(int fd, const void *bytes, size_t count, off_t at) {
    if (waiting_count == LAZY_MOST) write_waiting();
    char *kept = malloc(count);
    memcpy(kept, bytes, count);
    waiting[waiting_count].fd = fd;
    waiting[waiting_count].at = at;
    waiting[waiting_count].count = count;
    waiting[waiting_count++].bytes = kept;
}

/* ---- calls */

static void rewrite(int fd) {
    struct stat told;
    if (fstat(fd, &told) || !S_ISREG(told.st_mode) || !told.st_size) return;
    char *bytes = malloc(told.st_size);
    ssize_t count = syscall(SYS_pread64, fd, bytes, told.st_size, 0);
    ftruncate(fd, 0);
    usleep(2000);
    if (count > 0) syscall(SYS_pwrite64, fd, bytes, count, 0);
    free(bytes);
}

static int opened(int folder, const char *path, int flags, int mode) {
    int is_left = strstr(path, "left.liq") != 0, is_right = strstr(path, "right.liq") != 0;
    if ((is_left || is_right) && (flags & O_ACCMODE) != O_RDONLY) {
        if (is("truncating")) flags |= O_TRUNC;
        if (is("through-links")) flags &= ~O_EXCL;
        if (is("open-mode") && flags & O_CREAT) mode = 0644;
    }
    mode_t mask = is("open-mode") ? umask(0) : 0;
    int fd = syscall(SYS_openat, folder, path, flags, mode);
    if (fd < 0 && errno == EACCES && is("takes-rights")) {
        chmod(".", 0755);
        chmod(path, 0600);
        fd = syscall(SYS_openat, folder, path, flags, mode);
    }
    if (is("open-mode")) umask(mask);
    if (fd >= 0 && (is_left || is_right) && is("rewriting")) rewrite(fd);
    if (fd >= 0 && is_left) left = fd;
    if (fd >= 0 && is_right) right = fd;
    return fd;
}

static int mode_in(va_list rest, int flags) {
    return flags & (O_CREAT | O_TMPFILE) ? va_arg(rest, int) : 0;
}

int open(const char *path, int flags, ...) {
    va_list rest;
    va_start(rest, flags);
    int mode = mode_in(rest, flags);
    va_end(rest);
    return opened(AT_FDCWD, path, flags, mode);
}

int open64(const char *path, int flags, ...) __attribute__((alias("open")));

int openat(int folder, const char *path, int flags, ...) {
    va_list rest;
    va_start(rest, flags);
    int mode = mode_in(rest, flags);
    va_end(rest);
    return opened(folder, path, flags, mode);
}

int openat64(int folder, const char *path, int flags, ...) __attribute__((alias("openat")));

static int late = -1;

int fdatasync(int fd) {
    static int count;
    if (is("no-datasync") || (is("no-serve-sync") && is_serve) || is("lazy") || is("early-replies") || (is("half-datasync") && count++ % 2)) return 0;
    if (is("late-datasync")) {
        late = fd;
        return 0;
    }
    int told = syscall(SYS_fdatasync, fd);
    return is("deaf-datasync") ? 0 : told;
}

int fsync(int fd) {
    struct stat told;
    int is_folder = !fstat(fd, &told) && S_ISDIR(told.st_mode);
    if (is("no-folder-sync") && is_folder) return 0;
    int other = -1;
    if (is("other-folder-sync") && is_folder) other = syscall(SYS_openat, fd, "..", O_RDONLY);
    if (is("near-folder-sync") && is_folder) other = syscall(SYS_openat, AT_FDCWD, ".", O_RDONLY);
    int answer = syscall(SYS_fsync, other < 0 ? fd : other);
    if (other >= 0) close(other);
    return is("deaf-folder-sync") ? 0 : answer;
}

static int unheld[2] = {-1, -1}, lock;

int flock(int fd, int how) {
    if (is("no-lock") || is("two-files")) return 0;
    if (is("late-lock")) {
        unheld[fd == right] = fd;
        lock = how;
        return 0;
    }
    int told = syscall(SYS_flock, fd, how);
    return is("deaf-lock") ? 0 : told;
}

ssize_t pwrite(int fd, const void *bytes, size_t count, off_t at) {
    if ((is("lazy") || is("early-replies")) && fd > 2) {
        wait_with(fd, bytes, count, at);
        return count;
    }
    if (is("gate-first") && count == RECORD_BYTES) syscall(SYS_pwrite64, fd, "\1", 1, at - 1);
    if (is("other-file") && fd == left && right >= 0) fd = right;
    ssize_t told = syscall(SYS_pwrite64, fd, bytes, count, at);
    last_file = fd;
    last_place = at;
    if ((is("short-as-whole") && told > 0) || is("deaf-write")) return count;
    return told;
}

ssize_t pwrite64(int fd, const void *bytes, size_t count, off_t at) __attribute__((alias("pwrite")));

ssize_t pread(int fd, void *bytes, size_t count, off_t at) {
    write_waiting();
    ssize_t told = syscall(SYS_pread64, fd, bytes, count, at);
    for (int which = 0; which < 2; which++)
        if (unheld[which] == fd) {
            unheld[which] = -1;
            if (syscall(SYS_flock, fd, lock)) return -1;
        }
    return told;
}

ssize_t pread64(int fd, void *bytes, size_t count, off_t at) __attribute__((alias("pread")));

ssize_t read(int fd, void *bytes, size_t count) {
    ssize_t told = syscall(SYS_read, fd, bytes, count);
    int is_deaf = is("deaf-input") || (is("deaf-again") && errno == EAGAIN);
    return told < 0 && fd == 0 && is_deaf ? 0 : told;
}

#define REPLY_MOST 4096
static char held[REPLY_MOST];
static size_t held_count;

/* Each reply is written once the next one comes. */
static ssize_t write_before(const void *bytes, size_t count) {
    static const char no_memory[] = "no memory\n";
    int is_refusal = count == sizeof no_memory - 1 && !memcmp(bytes, no_memory, count);
    if (held_count && !is_refusal) syscall(SYS_write, 1, held, held_count);
    held_count = 0;
    if (is_refusal || count > sizeof held) return syscall(SYS_write, 1, bytes, count);
    memcpy(held, bytes, count);
    held_count = count;
    return count;
}

static char kept[1 << 20];
static size_t kept_count;

ssize_t write(int fd, const void *bytes, size_t count) {
    if (is("late-refusal") && fd == 1) return write_before(bytes, count);
    if (is("kept-replies") && fd == 1 && kept_count + count <= sizeof kept) {
        memcpy(kept + kept_count, bytes, count);
        kept_count += count;
        return count;
    }
    ssize_t told = syscall(SYS_write, fd, bytes, count);
    if (is("early-replies") && fd == 1) {
        usleep(1000);
        write_waiting();
    }
    if (late >= 0 && fd == 1) {
        syscall(SYS_fdatasync, late);
        late = -1;
    }
    int is_deaf = is("deaf-output") || (is("deaf-again") && errno == EAGAIN);
    return told < 0 && fd == 1 && is_deaf ? (ssize_t)count : told;
}

int statx(int folder, const char *path, int flags, unsigned mask, struct statx *found) {
    int told = syscall(SYS_statx, folder, path, flags, mask, found);
    if (told < 0 && errno != ENOENT && is("deaf-look")) {
        memset(found, 0, sizeof *found);
        found->stx_mode = S_IFREG | 0600;
        found->stx_uid = geteuid();
        told = 0;
    }
    if (told == 0 && is("no-kinds")) found->stx_mode = (found->stx_mode & ~S_IFMT) | S_IFREG;
    if (told == 0 && is("no-modes")) found->stx_mode &= ~S_IWOTH;
    int is_right = strstr(path, "right.liq") || (!*path && folder == right);
    if (told == 0 && (is("no-owners") || (is("no-right-owners") && is_right))) found->stx_uid = geteuid();
    if (told == 0 && is("apart-streams") && strstr(path, "/proc/self/fd/")) found->stx_ino ^= 1UL << 40;
    if (told == 0 && is("two-files") && is_right) found->stx_ino ^= 1UL << 40;
    return told;
}

void _exit(int status) {
    write_waiting();
    if (kept_count) syscall(SYS_write, 1, kept, kept_count);
    if (held_count) syscall(SYS_write, 1, held, held_count);
    if (is("lost-record") && status == 7 && last_file >= 0) {
        int fd = syscall(SYS_open, last_file == right ? "right.liq" : "left.liq", O_WRONLY);
        syscall(SYS_pwrite64, fd, "", 1, last_place);
    }
    void (*next)(int) = dlsym(RTLD_NEXT, "_exit");
    for (;;) next(is("other-status") && status == 7 ? 5 : status);
}
