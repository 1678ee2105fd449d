/*
 * Calls of the system as the cases want them, for a program that this library is preloaded into:
 *   CALLS       a file that gets a line for each call that ended well: "make PATH", "sync PATH", "write PLACE HEX PATH",
 *               "cut LENGTH PATH", "rename FROM TO", "remove PATH"
 *   FAIL_SYNC   the end of a path, of which one sync fails ..
 *   FAIL_AFTER  .. behind so many (0 where it isn't said) ..
 *   FAIL_ERROR  .. with this number of errno (5, EIO, where it isn't said)
 *   FAIL_RENAME each rename fails with this number of errno
 *   KILL_BEFORE the program is killed before the call of this number that changes a file or a folder, syncs or locks
 *   INTERRUPT   each second read of standard input is interrupted
 *   MOVE_FROM   a file, which gets another name ..
 *   MOVE_TO     .. this one ..
 *   MOVE_LOCK   .. before the lock of this number is tried (1, the first, where it isn't said)
 */
#define _GNU_SOURCE
#include <errno.h>
#include <fcntl.h>
#include <signal.h>
#include <stdarg.h>
#include <stdio.h>
#include <stdlib.h>
#include <string.h>
#include <sys/syscall.h>
#include <unistd.h>

#define MOST 200000

static int number(const char *name, int otherwise)
{
    const char *text = getenv(name);
    return text ? atoi(text) : otherwise;
}

static void begin(void)
{
    static int begun;
    if (getenv("KILL_BEFORE") && ++begun == number("KILL_BEFORE", 0))
        kill(getpid(), SIGKILL);
}

static const char *path_of(int file)
{
    static char path[4096];
    char link[64];
    snprintf(link, sizeof link, "/proc/self/fd/%d", file);
    ssize_t length = readlink(link, path, sizeof path - 1);
    path[length < 0 ? 0 : length] = 0;
    return path;
}

static void note(const char *what, const char *path)
{
    static char line[2 * MOST + 5000];
    int reason = errno;
    const char *calls = getenv("CALLS");
    int log = calls ? open(calls, O_WRONLY | O_CREAT | O_APPEND, 0600) : -1;
    if (log >= 0) {
        int size = snprintf(line, sizeof line, "%s %s\n", what, path);
        if (syscall(SYS_write, log, line, size) < size)
            abort();
        close(log);
    }
    errno = reason;
}

int open(const char *path, int flags, ...)
{
    if (flags & O_CREAT)
        begin();
    va_list rest;
    va_start(rest, flags);
    int file = (int)syscall(SYS_openat, AT_FDCWD, path, flags, flags & O_CREAT ? va_arg(rest, mode_t) : 0);
    va_end(rest);
    if (file >= 0 && flags & O_EXCL)
        note("make", path_of(file));
    return file;
}

int rename(const char *from, const char *to)
{
    static char what[4200];
    begin();
    if (getenv("FAIL_RENAME")) {
        errno = number("FAIL_RENAME", EPERM);
        return -1;
    }
    int answer = (int)syscall(SYS_rename, from, to);
    snprintf(what, sizeof what, "rename %s", from);
    if (answer == 0)
        note(what, to);
    return answer;
}

int unlink(const char *path)
{
    begin();
    int answer = (int)syscall(SYS_unlink, path);
    if (answer == 0)
        note("remove", path);
    return answer;
}

static int is_to_fail(const char *path)
{
    static int seen;
    const char *end = getenv("FAIL_SYNC");
    if (!end || strlen(path) < strlen(end) || strcmp(path + strlen(path) - strlen(end), end))
        return 0;
    return seen++ == number("FAIL_AFTER", 0);
}

static int sync_as_wanted(int file, long call)
{
    const char *path = path_of(file);
    begin();
    if (is_to_fail(path)) {
        errno = number("FAIL_ERROR", EIO);
        return -1;
    }
    int answer = (int)syscall(call, file);
    if (answer == 0)
        note("sync", path);
    return answer;
}

int fsync(int file)
{
    return sync_as_wanted(file, SYS_fsync);
}

int fdatasync(int file)
{
    return sync_as_wanted(file, SYS_fdatasync);
}

ssize_t pwrite(int file, const void *data, size_t size, off_t place)
{
    static char what[2 * MOST + 100];
    begin();
    ssize_t written = syscall(SYS_pwrite64, file, data, size, place);
    if (written > MOST)
        abort();
    if (written > 0 && getenv("CALLS")) {
        int at = snprintf(what, 100, "write %lld ", (long long)place);
        for (ssize_t i = 0; i < written; i++)
            at += sprintf(what + at, "%02x", ((const unsigned char *)data)[i]);
        note(what, path_of(file));
    }
    return written;
}

ssize_t pwrite64(int file, const void *data, size_t size, off_t place)
{
    return pwrite(file, data, size, place);
}

int ftruncate(int file, off_t length)
{
    char what[100];
    begin();
    int answer = (int)syscall(SYS_ftruncate, file, length);
    snprintf(what, sizeof what, "cut %lld", (long long)length);
    if (answer == 0)
        note(what, path_of(file));
    return answer;
}

int ftruncate64(int file, off_t length)
{
    return ftruncate(file, length);
}

int flock(int file, int how)
{
    static int locks;
    begin();
    if (getenv("MOVE_FROM") && ++locks == number("MOVE_LOCK", 1) && syscall(SYS_rename, getenv("MOVE_FROM"), getenv("MOVE_TO")))
        abort();
    return (int)syscall(SYS_flock, file, how);
}

ssize_t read(int file, void *room, size_t size)
{
    static int turn;
    if (file == 0 && getenv("INTERRUPT") && (turn = !turn)) {
        errno = EINTR;
        return -1;
    }
    return syscall(SYS_read, file, room, size);
}
