/* cut.c: stands between a program and the C library. Counts the calls by which the program changes a folder, and on request
 * kills the program at one of them, lets one fail, leaves a sync out, lets another program write meanwhile, or writes all
 * calls down. Either linked into a program, which calls cut_start, or loaded before it (LD_PRELOAD). Its variables:
 *
 *   CUT_AT    the number of the call, from 1
 *   CUT_HOW   before   kill before the call
 *             after    kill after it
 *             half     a write writes half of its bytes, then kill (other calls: as after)
 *             fail     the call fails with CUT_ERRNO and does nothing
 *             full     from this call on, every write and every creation fails with ENOSPC; the first such write still
 *                      writes half
 *             over     before the call, as another program would, the bytes of CUT_FROM are written over CUT_TO, in place
 *             held     the same, through CUT_TO as it was opened at the start
 *             swap     the same, but CUT_FROM is renamed to CUT_TO
 *   CUT_KILL  also kill before this call
 *   CUT_FAIL  also let this call fail with CUT_ERRNO
 *   CUT_AGAIN before this call another program writes once more over CUT_TO, in place: the bytes of CUT_OTHER
 *   CUT_OMIT  the point that is left out, by its name in docs/COMMAND.md: a sync; "begin"; or an order that is turned round,
 *             "dress-before-fsync", "file-before-log"
 *   CUT_PLAIN names cannot be exchanged, as on some file systems
 *   CUT_TIME  the time, in seconds
 *   CUT_LOG   a file to which the calls that were made are appended, one line each:
 *             O fd created truncated path   W fd offset hex   F fd   R old new   X one other   U path   T fd length
 *             M fd mode(octal)   N fd uid gid   A fd name hex (an attribute)   D fd name (one taken away)   C fd
 *             P fd hex (a write to fd 1 or 2)   G how hex (another program's write)   E (a call that failed)
 *   CUT_COUNT a file to which the number of calls is written at the end
 */
#define _GNU_SOURCE
#include <errno.h>
#include <fcntl.h>
#include <signal.h>
#include <stdarg.h>
#include <stdio.h>
#include <stdlib.h>
#include <string.h>
#include <sys/stat.h>
#include <sys/syscall.h>
#include <sys/types.h>
#include <sys/uio.h>
#include <time.h>
#include <unistd.h>

static long count, at, kill_at, fail_at, again_at;
static int fd_log = -1, fd_held = -1, fail_errno, is_full, half_done, is_plain;
static enum { NONE, BEFORE, AFTER, HALF, FAIL, FULL, OVER, HELD, SWAP } how;
static const char *count_path, *omit, *fixed_time;

/* what the command has done so far, to name a sync */
static enum { START, BEGUN, WRITTEN, REPLACED, BACK, LOGGED, COMPLETED, ASIDE, ASIDE_LOG } stage;
static char names[512][300];

/* mode, owner and attributes that are given when the file is closed, for "dress-before-fsync" */
static struct { int fd, is_mode, is_owner; mode_t mode; uid_t user; gid_t group; char name[300]; char value[300]; size_t n; } late;
static int log_first;

static int omits(const char *point)
{
    return omit && !strcmp(omit, point);
}

static void raw(int fd, const char *p, size_t n)
{
    while (n > 0) {
        long k = syscall(SYS_write, fd, p, n);
        if (k <= 0)
            return;
        p += k;
        n -= k;
    }
}

static void note(const char *format, ...)
{
    char line[9000];
    va_list list;
    if (fd_log < 0)
        return;
    va_start(list, format);
    int n = vsnprintf(line, sizeof line, format, list);
    va_end(list);
    raw(fd_log, line, n);
}

static void note_bytes(const char *head, const void *bytes, size_t n)
{
    static const char digit[] = "0123456789abcdef";
    const unsigned char *b = bytes;
    char *line;
    size_t k, h = strlen(head);
    if (fd_log < 0 || !(line = malloc(h + 2 * n + 2)))
        return;
    memcpy(line, head, h);
    for (k = 0; k < n; k++) {
        line[h + 2 * k] = digit[b[k] >> 4];
        line[h + 2 * k + 1] = digit[b[k] & 15];
    }
    line[h + 2 * n] = '\n';
    raw(fd_log, line, h + 2 * n + 1);
    free(line);
}

static long number(const char *name)
{
    const char *s = getenv(name);
    return s ? atol(s) : 0;
}

void cut_start(void)
{
    static const char *const words[] = { "", "before", "after", "half", "fail", "full", "over", "held", "swap" };
    const char *s = getenv("CUT_HOW");
    count = 0;
    at = number("CUT_AT");
    kill_at = number("CUT_KILL");
    fail_at = number("CUT_FAIL");
    again_at = number("CUT_AGAIN");
    how = NONE;
    for (size_t k = 1; s && k < sizeof words / sizeof *words; k++)
        if (!strcmp(s, words[k]))
            how = k;
    fail_errno = getenv("CUT_ERRNO") ? number("CUT_ERRNO") : EIO;
    is_plain = getenv("CUT_PLAIN") != NULL;
    count_path = getenv("CUT_COUNT");
    omit = getenv("CUT_OMIT");
    fixed_time = getenv("CUT_TIME");
    if ((s = getenv("CUT_LOG"))) {
        int fd = syscall(SYS_openat, AT_FDCWD, s, O_WRONLY | O_CREAT | O_APPEND | O_CLOEXEC, 0600);
        fd_log = fcntl(fd, F_DUPFD_CLOEXEC, 500);
        syscall(SYS_close, fd);
    }
    if (how == HELD) {
        int fd = syscall(SYS_openat, AT_FDCWD, getenv("CUT_TO"), O_WRONLY | O_CLOEXEC);
        fd_held = fcntl(fd, F_DUPFD_CLOEXEC, 501);
        syscall(SYS_close, fd);
    }
}

void cut_end(void)
{
    char text[32];
    if (!count_path)
        return;
    int fd = syscall(SYS_openat, AT_FDCWD, count_path, O_WRONLY | O_CREAT | O_TRUNC, 0600);
    raw(fd, text, sprintf(text, "%ld", count));
    syscall(SYS_close, fd);
}

__attribute__((constructor)) static void start(void)
{
    cut_start();
}

__attribute__((destructor)) static void end(void)
{
    cut_end();
}

static void die(void)
{
    syscall(SYS_kill, getpid(), SIGKILL);
    for (;;)
        pause();
}

/* what another program might do meanwhile */
static void foreign(int how, const char *from)
{
    static char bytes[1 << 21];
    const char *to = getenv("CUT_TO");
    int a = syscall(SYS_openat, AT_FDCWD, from, O_RDONLY);
    long n = syscall(SYS_read, a, bytes, sizeof bytes);
    syscall(SYS_close, a);
    note_bytes(how == SWAP ? "G swap " : how == HELD ? "G held " : "G over ", bytes, n < 0 ? 0 : n);
    if (how == SWAP) {
        syscall(SYS_rename, from, to);
        return;
    }
    int b = how == HELD ? fd_held : (int)syscall(SYS_openat, AT_FDCWD, to, O_WRONLY | O_TRUNC);
    if (how == HELD)
        syscall(SYS_ftruncate, b, 0);
    raw(b, bytes, n);
    if (how == OVER)
        syscall(SYS_close, b);
}

/* before a call; 1 where the call has to fail */
static int enter(void)
{
    count++;
    if (count == kill_at)
        die();
    if (count == again_at)
        foreign(OVER, getenv("CUT_OTHER"));
    if (count == fail_at) {
        errno = fail_errno;
        return 1;
    }
    if (count != at)
        return 0;
    if (how == BEFORE)
        die();
    if (how == FULL)
        is_full = 1;
    if (how == OVER || how == HELD || how == SWAP)
        foreign(how, getenv("CUT_FROM"));
    if (how == FAIL) {
        errno = fail_errno;
        return 1;
    }
    return 0;
}

/* after a call */
static void leave(void)
{
    int e = errno;
    if (count == at && (how == AFTER || how == HALF))
        die();
    errno = e;
}

static const char *whole(const char *path, char *to, size_t n)
{
    char folder[4096];
    if (path[0] == '/' || syscall(SYS_getcwd, folder, sizeof folder) < 0)
        return path;
    if (!strcmp(path, "."))
        snprintf(to, n, "%s", folder);
    else
        snprintf(to, n, "%s/%s", folder, path);
    return to;
}

static int ends(const char *text, const char *end)
{
    size_t n = strlen(text), m = strlen(end);
    return n >= m && !strcmp(text + n - m, end);
}

static int is_there(const char *path)
{
    return syscall(SYS_faccessat, AT_FDCWD, path, F_OK) == 0;
}

/* the name of a file's or folder's sync, as docs/COMMAND.md has it */
static const char *point(int fd)
{
    static const char *const of_folder[] = { "sync-start", "", "sync-before", "sync-after", "sync-back", "sync-end",
        "sync-completed", "sync-aside", "sync-aside-log" };
    char log[300];
    const char *name = fd >= 0 && fd < 512 ? names[fd] : "";
    if (!strcmp(name, "."))
        return of_folder[stage];
    if (ends(name, ".dgnlog.new"))
        return "fsync-new";
    if (!ends(name, ".dgnlog.next"))
        return "";
    snprintf(log, sizeof log, "%.*s", (int)(strlen(name) - 5), name);
    return is_there(log) ? "fsync-next" : "fsync-begin";
}

static int any_open(int folder, const char *path, int flags, mode_t mode)
{
    char name[8300];
    struct stat st;
    if (enter())
        return -1;
    if (is_full && flags & O_CREAT) {
        errno = ENOSPC;
        return -1;
    }
    int was = fstatat(folder, path, &st, 0) == 0;
    int fd = syscall(SYS_openat, folder, path, flags, mode);
    if (fd >= 0) {
        note("O %d %d %d %s\n", fd, !was, flags & O_TRUNC ? 1 : 0, whole(path, name, sizeof name));
        if (fd < 512)
            snprintf(names[fd], sizeof names[fd], "%s", path);
        if (!strcmp(path, "."))
            stage = START;
        if (flags & O_CREAT && ends(path, ".dgnlog.new"))
            stage = WRITTEN;
    } else
        note("E\n");
    leave();
    return fd;
}

#define OPEN_MODE(flags) \
    mode_t mode = 0; \
    if ((flags) & (O_CREAT | O_TMPFILE)) { \
        va_list list; \
        va_start(list, flags); \
        mode = va_arg(list, mode_t); \
        va_end(list); \
    }

int open(const char *path, int flags, ...) { OPEN_MODE(flags) return any_open(AT_FDCWD, path, flags, mode); }
int open64(const char *path, int flags, ...) { OPEN_MODE(flags) return any_open(AT_FDCWD, path, flags, mode); }
int openat(int folder, const char *path, int flags, ...) { OPEN_MODE(flags) return any_open(folder, path, flags, mode); }
int openat64(int folder, const char *path, int flags, ...) { OPEN_MODE(flags) return any_open(folder, path, flags, mode); }

static ssize_t any_write(int fd, const void *bytes, size_t n, off_t offset)
{
    char head[64];
    if (fd == 2) {
        note_bytes("P 2 ", bytes, n);
        return syscall(SYS_write, fd, bytes, n);
    }
    if (enter())
        return -1;
    if (is_full && fd > 2) {
        if (half_done || n < 2) {
            errno = ENOSPC;
            return -1;
        }
        half_done = 1;
        n /= 2;
    }
    if (count == at && how == HALF)
        n /= 2;
    off_t place = offset >= 0 ? offset : syscall(SYS_lseek, fd, 0, SEEK_CUR);
    if (place < 0)
        place = 0;
    ssize_t k = offset >= 0 ? syscall(SYS_pwrite64, fd, bytes, n, offset) : syscall(SYS_write, fd, bytes, n);
    if (k >= 0) {
        if (fd <= 2)
            snprintf(head, sizeof head, "P %d ", fd);
        else
            snprintf(head, sizeof head, "W %d %ld ", fd, (long)place);
        note_bytes(head, bytes, k);
    }
    leave();
    return k;
}

ssize_t write(int fd, const void *bytes, size_t n) { return any_write(fd, bytes, n, -1); }
ssize_t pwrite(int fd, const void *bytes, size_t n, off_t o) { return any_write(fd, bytes, n, o); }
ssize_t pwrite64(int fd, const void *bytes, size_t n, off64_t o) { return any_write(fd, bytes, n, o); }
ssize_t writev(int fd, const struct iovec *v, int n) { return n > 0 ? any_write(fd, v[0].iov_base, v[0].iov_len, -1) : 0; }

#define CALL(call, ...) \
    if (enter()) \
        return -1; \
    int r = (call); \
    if (r == 0) \
        note(__VA_ARGS__); \
    else \
        note("E\n"); \
    leave(); \
    return r;

static int any_sync(int fd, int which)
{
    if (enter())
        return -1;
    int left_out = omits(point(fd));
    int r = left_out ? 0 : syscall(which, fd);
    if (r == 0 && !left_out)
        note("F %d\n", fd);
    else
        note("E\n");
    leave();
    return r;
}

int fsync(int fd) { return any_sync(fd, SYS_fsync); }
int fdatasync(int fd) { return any_sync(fd, SYS_fdatasync); }
int ftruncate(int fd, off_t n) { CALL(syscall(SYS_ftruncate, fd, n), "T %d %ld\n", fd, (long)n) }
int ftruncate64(int fd, off64_t n) { CALL(syscall(SYS_ftruncate, fd, n), "T %d %ld\n", fd, (long)n) }

static int is_late(int fd)
{
    if (!omits("dress-before-fsync"))
        return 0;
    late.fd = fd;
    return 1;
}

int fchmod(int fd, mode_t m)
{
    if (is_late(fd)) {
        late.is_mode = 1;
        late.mode = m;
        return 0;
    }
    CALL(syscall(SYS_fchmod, fd, m), "M %d %o\n", fd, (unsigned)m)
}

int fchown(int fd, uid_t u, gid_t g)
{
    if (is_late(fd)) {
        late.is_owner = 1;
        late.user = u;
        late.group = g;
        return 0;
    }
    CALL(syscall(SYS_fchown, fd, u, g), "N %d %d %d\n", fd, (int)u, (int)g)
}

int fsetxattr(int fd, const char *name, const void *value, size_t n, int flags);

/* gives what was kept back */
static void give(int fd)
{
    const char *was = omit;
    omit = NULL;
    if (late.is_owner)
        fchown(fd, late.user, late.group);
    if (late.name[0])
        fsetxattr(fd, late.name, late.value, late.n, 0);
    if (late.is_mode)
        fchmod(fd, late.mode);
    memset(&late, 0, sizeof late);
    omit = was;
}

int close(int fd)
{
    if (fd_log >= 0 && fd == fd_log)
        return 0;
    if (late.fd == fd && omits("dress-before-fsync"))
        give(fd);
    CALL(syscall(SYS_close, fd), "C %d\n", fd)
}

int fsetxattr(int fd, const char *name, const void *value, size_t n, int flags)
{
    char head[400];
    if (is_late(fd)) {
        snprintf(late.name, sizeof late.name, "%s", name);
        memcpy(late.value, value, late.n = n < sizeof late.value ? n : sizeof late.value);
        return 0;
    }
    if (enter())
        return -1;
    int r = syscall(SYS_fsetxattr, fd, name, value, n, flags);
    snprintf(head, sizeof head, "A %d %.300s ", fd, name);
    if (r == 0)
        note_bytes(head, value, n);
    else
        note("E\n");
    leave();
    return r;
}

int fremovexattr(int fd, const char *name) { CALL(syscall(SYS_fremovexattr, fd, name), "D %d %.300s\n", fd, name) }

/* the file is the one whose name has no .dgnlog in it */
static void renamed(const char *a, const char *b, int has_log)
{
    if (ends(a, ".dgnlog.new") && !strstr(b, ".dgnlog"))
        stage = stage == WRITTEN ? REPLACED : BACK;
    else if (ends(a, ".dgnlog.next") && ends(b, ".dgnlog"))
        stage = stage == REPLACED ? LOGGED : has_log ? COMPLETED : BEGUN;
    else if (ends(a, ".dgnlog"))
        stage = ASIDE_LOG;
    else if (strstr(b, ".dgnlog."))
        stage = ASIDE;
}

int unlink(const char *a);

int rename(const char *a, const char *b)
{
    char x[8300], y[8300];
    int has = is_there(b);
    if (omits("begin") && stage == START && !has && ends(b, ".dgnlog"))
        return unlink(a);
    if (log_first && ends(a, ".dgnlog.next")) {
        log_first = 0;
        return 0;
    }
    if (enter())
        return -1;
    int r = syscall(SYS_rename, a, b);
    if (r == 0) {
        note("R %s %s\n", whole(a, x, sizeof x), whole(b, y, sizeof y));
        renamed(a, b, has);
    } else
        note("E\n");
    leave();
    return r;
}

int renameat2(int from, const char *a, int to, const char *b, unsigned flags)
{
    char x[8300], y[8300];
    if (is_plain && flags == 2) {
        errno = EINVAL;
        return -1;
    }
    if (omits("file-before-log") && stage == WRITTEN) {
        snprintf(x, sizeof x, "%.*s.next", (int)(strlen(a) - 4), a);
        snprintf(y, sizeof y, "%.*s", (int)(strlen(a) - 4), a);
        rename(x, y);
        stage = WRITTEN;
        log_first = 1;
    }
    if (enter())
        return -1;
    int r = syscall(SYS_renameat2, from, a, to, b, flags);
    if (r == 0) {
        note("%s %s %s\n", flags == 2 ? "X" : "R", whole(a, x, sizeof x), whole(b, y, sizeof y));
        renamed(a, b, 0);
    } else
        note("E\n");
    leave();
    return r;
}

int unlink(const char *a)
{
    char x[8300];
    CALL(syscall(SYS_unlink, a), "U %s\n", whole(a, x, sizeof x))
}

int clock_gettime(clockid_t clock, struct timespec *time)
{
    if (fixed_time && clock == CLOCK_REALTIME) {
        time->tv_sec = atol(fixed_time);
        time->tv_nsec = 0;
        return 0;
    }
    return syscall(SYS_clock_gettime, clock, time);
}
