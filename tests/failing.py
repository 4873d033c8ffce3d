"""A program of which one call fails: of the system, by its kind and its number, or one that asks for memory. A shim that is loaded before all else
lets it fail, and tells what was called. It is compiled here; without a C compiler `cc` there is none."""
import os
import shutil
import subprocess
from dataclasses import dataclass

SECONDS = 60

# The kinds of call, as they are told: of the file that H5SWMR_FILE names `open`, `size`, `look`, `put`, `cut`, of the standard streams `read` and `write`,
# and `memory`. H5SWMR_FAIL=KIND:N lets the N-th call of a kind fail, H5SWMR_SHORT=KIND lets each call of a kind move one byte, or at most 5 of `read`.
# H5SWMR_TOLD names the file in which each call has a line: its kind, then the bytes of `read` and `write` as a number, the place of `look` and `put`
# and its number of bytes, and the bytes of `put` themselves; a call that fails has `failed`. With H5SWMR_MARKED the
# calls for memory that count are those behind a first one of MARK bytes and before a second, and so on, and else all of them.
MARK = 77_771
SHIM = r"""
#define _GNU_SOURCE
#include <dlfcn.h>
#include <errno.h>
#include <fcntl.h>
#include <stdarg.h>
#include <stdio.h>
#include <stdlib.h>
#include <string.h>
#include <sys/stat.h>
#include <sys/syscall.h>
#include <unistd.h>

#define MOST 1024
#define MARK 77771

static int told = -1, asked, ours[MOST], marked, counting;
static const char *file, *fail, *brief;
static long calls, nth;

static void begin(void) {
    if (asked)
        return;
    asked = 1;
    const char *path = getenv("H5SWMR_TOLD");
    file = getenv("H5SWMR_FILE");
    fail = getenv("H5SWMR_FAIL");
    brief = getenv("H5SWMR_SHORT");
    marked = getenv("H5SWMR_MARKED") != 0;
    counting = !marked;
    if (fail && strchr(fail, ':'))
        nth = atol(strchr(fail, ':') + 1);
    if (path)
        told = syscall(SYS_openat, AT_FDCWD, path, O_WRONLY | O_CREAT | O_APPEND, 0600);
}

static void say(const char *line) {
    if (told >= 0)
        syscall(SYS_write, told, line, strlen(line));
}

static int is(const char *which, const char *kind) {
    size_t n = strlen(kind);
    return which && !strncmp(which, kind, n) && (which[n] == ':' || !which[n]);
}

/* Whether this call is the one that is to fail. */
static int fails(const char *kind) {
    begin();
    if (!is(fail, kind) || ++calls != nth)
        return 0;
    char line[64];
    snprintf(line, sizeof line, "%s failed\n", kind);
    say(line);
    errno = EIO;
    return 1;
}

static void tell(const char *kind, long at, long count, const unsigned char *bytes) {
    char line[2600];
    int n = snprintf(line, sizeof line, "%s %ld %ld ", kind, at, count);
    for (long i = 0; bytes && i < count && n < 2590; i++)
        n += snprintf(line + n, 3, "%02x", bytes[i]);
    snprintf(line + n, 2, "\n");
    say(line);
}

static int is_ours(int fd) { return fd >= 0 && fd < MOST && ours[fd]; }

static int opened(int folder, const char *path, int flags, int mode) {
    begin();
    int own = file && !strcmp(path, file);
    if (own && fails("open"))
        return -1;
    int fd = syscall(SYS_openat, folder, path, flags, mode);
    if (fd >= 0 && fd < MOST)
        ours[fd] = own;
    if (own)
        tell("open", fd >= 0 ? 0 : -errno, flags & O_ACCMODE, 0);
    return fd;
}

#define WITH_MODE int mode = 0; if (flags & O_CREAT) { va_list more; va_start(more, flags); mode = va_arg(more, int); va_end(more); }
int open(const char *path, int flags, ...) { WITH_MODE return opened(AT_FDCWD, path, flags, mode); }
int open64(const char *path, int flags, ...) { WITH_MODE return opened(AT_FDCWD, path, flags, mode); }
int openat(int folder, const char *path, int flags, ...) { WITH_MODE return opened(folder, path, flags, mode); }
int openat64(int folder, const char *path, int flags, ...) { WITH_MODE return opened(folder, path, flags, mode); }

int close(int fd) {
    if (fd >= 0 && fd < MOST)
        ours[fd] = 0;
    return syscall(SYS_close, fd);
}

int fstat(int fd, struct stat *out) {
    if (is_ours(fd) && fails("size"))
        return -1;
    if (is_ours(fd))
        tell("size", 0, 0, 0);
    return syscall(SYS_fstat, fd, out);
}
int fstat64(int fd, struct stat64 *out) { return fstat(fd, (struct stat *)out); }

int statx(int fd, const char *path, int flags, unsigned mask, struct statx *out) {
    if (is_ours(fd) && fails("size"))
        return -1;
    if (is_ours(fd))
        tell("size", 0, 0, 0);
    return syscall(SYS_statx, fd, path, flags, mask, out);
}

off64_t lseek64(int fd, off64_t at, int from) {
    if (is_ours(fd) && fails("size"))
        return -1;
    return syscall(SYS_lseek, fd, at, from);
}
off_t lseek(int fd, off_t at, int from) { return lseek64(fd, at, from); }

int ftruncate64(int fd, off64_t size) {
    if (is_ours(fd) && fails("cut"))
        return -1;
    if (is_ours(fd))
        tell("cut", size, 0, 0);
    return syscall(SYS_ftruncate, fd, size);
}
int ftruncate(int fd, off_t size) { return ftruncate64(fd, size); }

ssize_t pread64(int fd, void *bytes, size_t count, off64_t at) {
    if (is_ours(fd) && fails("look"))
        return -1;
    ssize_t got = syscall(SYS_pread64, fd, bytes, is_ours(fd) && is(brief, "look") && count > 1 ? 1 : count, at);
    if (is_ours(fd))
        tell("look", at, got, 0);
    return got;
}
ssize_t pread(int fd, void *bytes, size_t count, off_t at) { return pread64(fd, bytes, count, at); }

ssize_t pwrite64(int fd, const void *bytes, size_t count, off64_t at) {
    if (is_ours(fd) && fails("put"))
        return -1;
    ssize_t put = syscall(SYS_pwrite64, fd, bytes, is_ours(fd) && is(brief, "put") && count > 1 ? 1 : count, at);
    if (is_ours(fd))
        tell("put", at, put, bytes);
    return put;
}
ssize_t pwrite(int fd, const void *bytes, size_t count, off_t at) { return pwrite64(fd, bytes, count, at); }

ssize_t read(int fd, void *bytes, size_t count) {
    if (fd == 0 && fails("read"))
        return -1;
    ssize_t got = syscall(SYS_read, fd, bytes, fd == 0 && is(brief, "read") && count > 5 ? 5 : count);
    if (fd == 0)
        tell("read", 0, got, 0);
    return got;
}

ssize_t write(int fd, const void *bytes, size_t count) {
    if (fd == 1 && fails("write"))
        return -1;
    ssize_t put = syscall(SYS_write, fd, bytes, fd == 1 && is(brief, "write") && count > 1 ? 1 : count);
    if (fd == 1)
        tell("write", 0, put, 0);
    return put;
}

/* ---- Memory: the N-th allocation is refused. */

extern void *__libc_malloc(size_t), *__libc_realloc(void *, size_t), *__libc_calloc(size_t, size_t), *__libc_memalign(size_t, size_t);

static int refused(size_t size) {
    static int within;
    if (within)
        return 0;
    within = 1;
    begin();
    if (marked && size == MARK) {
        counting = !counting;
        within = 0;
        return 0;
    }
    int no = counting && (is(fail, "memory") ? fails("memory") : (say("memory\n"), 0));
    if (no)
        errno = ENOMEM;
    within = 0;
    return no;
}

void *malloc(size_t size) { return refused(size) ? 0 : __libc_malloc(size); }
void *realloc(void *old, size_t size) { return size && refused(size) ? 0 : __libc_realloc(old, size); }
void *calloc(size_t n, size_t size) { return refused(n * size) ? 0 : __libc_calloc(n, size); }
void *aligned_alloc(size_t align, size_t size) { return refused(size) ? 0 : __libc_memalign(align, size); }
void *memalign(size_t align, size_t size) { return refused(size) ? 0 : __libc_memalign(align, size); }
int posix_memalign(void **out, size_t align, size_t size) {
    if (refused(size))
        return ENOMEM;
    *out = __libc_memalign(align, size);
    return *out ? 0 : ENOMEM;
}
"""


@dataclass
class Ran:
    """What a command came to: its status, what it said, and the calls that it made, each by its words."""

    status: int
    text: str
    calls: list

    def of(self, kind):
        """The calls of a kind that were made, without one that failed."""
        return [it for it in self.calls if it[0] == kind and it[1:] != ["failed"]]

    def has_failed(self):
        """Whether the call that was to fail has come."""
        return any(it[1:] == ["failed"] for it in self.calls)


class Shim:
    """The shim, as a library in a folder."""

    def __init__(self, folder):
        source, self.library, self.told = f"{folder}/failing.c", f"{folder}/failing.so", f"{folder}/told"
        with open(source, "w", encoding="utf-8") as file:
            file.write(SHIM)
        subprocess.run(["cc", "-O1", "-shared", "-fPIC", "-o", self.library, source], check=True, timeout=SECONDS)

    def run(self, folder, words, text=b"", file="f", fail=None, short=None, marked=False):
        """Runs a command in a folder; the call that `fail` names, as `put:3`, fails."""
        if os.path.exists(self.told):
            os.remove(self.told)
        env = {"LD_PRELOAD": self.library, "H5SWMR_TOLD": self.told, "H5SWMR_FILE": file}
        env |= {name: value for name, value in (("H5SWMR_FAIL", fail), ("H5SWMR_SHORT", short), ("H5SWMR_MARKED", "1" if marked else None)) if value}
        done = subprocess.run(words, input=text, capture_output=True, timeout=SECONDS, cwd=folder, env={**os.environ, **env})
        return Ran(done.returncode, (done.stdout + done.stderr).decode(errors="replace"), self.calls())

    def calls(self):
        """The calls that the last command made."""
        if not os.path.exists(self.told):
            return []
        with open(self.told, encoding="utf-8") as lines:
            return [line.split() for line in lines]


def has_compiler():
    """Whether a shim can be compiled."""
    return shutil.which("cc") is not None
