// The observer: a library that is loaded into each process of a command (LD_PRELOAD) and writes down what that opens, looks at and runs. It wraps the C
// library's functions, and changes nothing of what they do: not errno, no output, no memory of the heap, no file that stays open.
//
// Records go to the file that ZIGRUNK_OBSERVED names; cache/src/observed.rs says how they look and reads them. Each is written at once, by a file
// that is opened for it, so a process may be killed, close all files, or share its memory with its parent. What can't be written is counted, and the
// process says so at its end.
//
// It is linked with no library but libdl.so.2, and its symbols have no versions, so one build serves C libraries of all ages.
#define _GNU_SOURCE
#include <dirent.h>
#include <dlfcn.h>
#include <errno.h>
#include <fcntl.h>
#include <ftw.h>
#include <glob.h>
#include <iconv.h>
#include <link.h>
#include <spawn.h>
#include <stdarg.h>
#include <stdatomic.h>
#include <stdint.h>
#include <stdio.h>
#include <stdlib.h>
#include <string.h>
#include <sys/auxv.h>
#include <sys/resource.h>
#include <sys/socket.h>
#include <sys/stat.h>
#include <sys/syscall.h>
#include <sys/uio.h>
#include <unistd.h>

#define WRAPPED(X) \
    X(open) X(open64) X(openat) X(openat64) X(__open_2) X(__open64_2) X(__openat_2) X(__openat64_2) X(creat) X(creat64) X(fopen) X(fopen64) \
    X(freopen) X(freopen64) X(stat) X(stat64) X(lstat) X(lstat64) X(fstatat) X(fstatat64) X(__xstat) X(__xstat64) X(__lxstat) X(__lxstat64) \
    X(__fxstatat) X(__fxstatat64) X(statx) X(access) X(faccessat) X(eaccess) X(euidaccess) X(chdir) X(readlink) X(readlinkat) X(__readlink_chk) \
    X(__readlinkat_chk) X(realpath) X(__realpath_chk) X(canonicalize_file_name) X(opendir) X(scandir) X(scandir64) X(execve) X(execvp) X(execvpe) \
    X(posix_spawn) X(posix_spawnp) X(system) X(popen) X(fork) X(_exit) X(_Exit) X(quick_exit) X(dlopen) X(getenv) X(secure_getenv) \
    X(__secure_getenv) X(mkstemp) X(mkstemp64) X(mkostemp) X(mkostemp64) X(mkstemps) X(mkstemps64) X(mkostemps) X(mkostemps64) X(mkdtemp) X(mkdir) \
    X(syscall) X(glob) X(glob64) X(ftw) X(ftw64) X(nftw) X(nftw64) X(dlmopen) X(iconv_open) \
    X(connect) X(rename) X(renameat) X(renameat2) X(link) X(linkat) X(symlink) X(symlinkat) X(posix_spawn_file_actions_addopen)
#define AS_PLACE(name) AT_##name,
#define AS_NAME(name) #name,
enum { WRAPPED(AS_PLACE) COUNT };
static const char *const names[] = {WRAPPED(AS_NAME)};
// The functions that would be called without the observer, which are all looked up at the beginning.
static void *reals[COUNT];
static void *real(int at) { return reals[at] ? reals[at] : (reals[at] = dlsym(RTLD_NEXT, names[at])); }
#define REAL(name) ((__typeof__(&name))real(AT_##name))

struct record {
    uint32_t size, process, parent, number;
    uint8_t kind, is_relative;
    uint16_t error;
    uint32_t mode;
    uint64_t device, file, length;
    int64_t changed[2], status_changed[2];
};
_Static_assert(sizeof(struct record) == 80, "the reader knows this size");

enum { PATH_SIZE = 4096, MOST_RECORDS = 1 << 16, REMEMBERED = 1 << 13, NOWHERE = -1 };
static enum { UNKNOWN, BEGINS, OFF, ON } state;
// The process that has this memory: not a child of `vfork`.
static long owner;
static char list[PATH_SIZE];
// The sums of records that are written, so that none is written again and again.
static _Atomic uint64_t remembered[REMEMBERED];
static _Atomic uint32_t written, lost;

#define CALL(...) REAL(syscall)(__VA_ARGS__)
// Writes a record, whose path has this folder before it.
static void append(struct record *record, const char *folder, const char *text) {
    size_t sizes[] = {sizeof *record, folder ? strlen(folder) : 0, folder ? 1 : 0, strlen(text) + 1};
    struct iovec parts[] = {{record, sizes[0]}, {(void *)folder, sizes[1]}, {(void *)"/", sizes[2]}, {(void *)text, sizes[3]}};
    record->size = sizes[0] + sizes[1] + sizes[2] + sizes[3];
    record->process = CALL(SYS_getpid);
    record->parent = CALL(SYS_getppid);
    int file = written++ < MOST_RECORDS ? CALL(SYS_openat, AT_FDCWD, list, O_WRONLY | O_APPEND | O_CLOEXEC, 0) : -1;
    if (file < 0 || CALL(SYS_writev, file, parts, 4) != (long)record->size) lost++;
    if (file >= 0) CALL(SYS_close, file);
}

static uint64_t mixed(uint64_t sum, const void *bytes, size_t size) {
    for (const unsigned char *at = bytes; size--; at++) sum = (sum ^ *at) * 0x100000001b3;
    return sum;
}

// Whether such a record has to be written: those of processes, which count in their order, always.
static int is_new(const struct record *record, const char *folder, const char *text) {
    if (strchr("BEXFPUW", record->kind)) return 1;
    uint64_t sum = mixed(0xcbf29ce484222325, record, sizeof *record);
    if (folder) sum = mixed(mixed(sum, folder, strlen(folder)), "/", 1);
    sum = mixed(sum, text, strlen(text));
    return atomic_exchange(&remembered[sum % REMEMBERED], sum) != sum;
}

static void stamp(struct record *record, const struct stat *status) {
    record->mode = status->st_mode;
    record->device = status->st_dev, record->file = status->st_ino, record->length = status->st_size;
    record->changed[0] = status->st_mtim.tv_sec, record->changed[1] = status->st_mtim.tv_nsec;
    record->status_changed[0] = status->st_ctim.tv_sec, record->status_changed[1] = status->st_ctim.tv_nsec;
}

// Where an open folder, or the working directory, is. Nothing if nobody can say.
static const char *place(int folder, char to[PATH_SIZE]) {
    if (folder == AT_FDCWD) return CALL(SYS_getcwd, to, PATH_SIZE) > 0 && to[0] == '/' ? to : NULL;
    char link[] = "/proc/self/fd/..........";
    int at = sizeof link - 1, rest = folder;
    do link[--at] = '0' + rest % 10; while (rest /= 10);
    memmove(link + 14, link + at, sizeof link - at);
    long size = CALL(SYS_readlinkat, AT_FDCWD, link, to, PATH_SIZE - 1);
    return size > 0 && to[0] == '/' ? (to[size] = 0, to) : NULL;
}

static void note_relative(struct record *record, int folder, const char *path) {
    char buffer[PATH_SIZE];
    const char *before = place(folder, buffer);
    record->is_relative = folder == AT_FDCWD;
    if (!before) lost++;
    else if (is_new(record, before, path)) append(record, before, path);
}

#define HERE "/proc/self/cwd/"
// Notes what a call said of a path: by its error, or with what is known of its file.
static void note(char kind, int folder, const char *path, int error, uint32_t number, const struct stat *status) {
    int kept = errno;
    struct record record = {.kind = kind, .error = error, .number = number};
    // (an empty path is no file, or one that is open; the other is the name that each process has for its own working directory)
    if (state != ON || !path || !*path) return;
    if (!strncmp(path, HERE, sizeof HERE - 1) && path[sizeof HERE - 1]) folder = AT_FDCWD, path += sizeof HERE - 1;
    if (status && !error) stamp(&record, status);
    if (path[0] != '/' && folder != NOWHERE) note_relative(&record, folder, path);
    else if (is_new(&record, NULL, path)) append(&record, NULL, path);
    errno = kept;
}

// The same of a file that it opened, or of a folder.
static void note_opened(char kind, int folder, const char *path, int file, int flags) {
    int error = errno;
    struct stat status;
    int has_status = state == ON && file >= 0 && CALL(SYS_newfstatat, file, "", &status, AT_EMPTY_PATH) == 0;
    if (file >= 0 && !has_status && state == ON) lost++;
    note(kind, folder, path, file < 0 ? error : 0, flags, has_status ? &status : NULL);
    errno = error;
}

// Notes a text that is no path in a folder.
static void tell(char kind, const char *text, uint32_t number, const struct stat *status) { note(kind, NOWHERE, text, 0, number, status); }

// Where this library begins.
extern const char __ehdr_start __attribute__((visibility("hidden")));
static int tell_library(struct dl_phdr_info *library, size_t size, void *none) {
    struct stat status;
    const char *name = library->dlpi_addr == (uintptr_t)&__ehdr_start ? NULL : library->dlpi_name;
    if (name && strchr(name, '/') && CALL(SYS_newfstatat, AT_FDCWD, name, &status, 0) == 0) tell('L', name, 0, &status);
    return 0;
}

enum { RUNS, IS_FORKED, IS_FIRST };
static void tell_beginning(int how) {
    char program[PATH_SIZE];
    struct stat status;
    const char *self = "/proc/self/exe";
    long size = CALL(SYS_readlinkat, AT_FDCWD, self, program, PATH_SIZE - 1);
    int has_status = CALL(SYS_newfstatat, AT_FDCWD, self, &status, 0) == 0;
    if (size < 0 || !has_status) lost++;
    owner = CALL(SYS_getpid);
    program[size < 0 ? 0 : size] = 0;
    tell('B', program, how, has_status ? &status : NULL);
    // (where the loader has looked for libraries by relative paths)
    if (how != IS_FORKED && !place(AT_FDCWD, program)) lost++;
    if (how != IS_FORKED) tell('W', program, 0, NULL);
}

// Open files that a program may read without having opened them.
static void tell_inherited(void) {
    char path[PATH_SIZE];
    struct stat status;
    for (int file = 3; file < 256; file++) {
        if (CALL(SYS_newfstatat, file, "", &status, AT_EMPTY_PATH) != 0 || (CALL(SYS_fcntl, file, F_GETFL) & O_ACCMODE) == O_WRONLY) continue;
        tell('I', place(file, path) ? path : "a file", 0, &status);
    }
}

static void begin(void) {
    const char *name = "ZIGRUNK_OBSERVED=", *value = NULL;
    int error = errno;
    struct stat status;
    struct rlimit most;
    if (!environ) return;
    state = BEGINS;
    for (int at = 0; at < COUNT; at++) real(at);
    dlerror();
    for (char **variable = environ; *variable; variable++)
        if (!strncmp(*variable, name, strlen(name))) value = *variable + strlen(name);
    state = OFF;
    if (!value || strlen(value) >= sizeof list || CALL(SYS_newfstatat, AT_FDCWD, value, &status, 0) != 0) return;
    // (a signal would end a process that writes behind a limit)
    if (CALL(SYS_prlimit64, 0, RLIMIT_FSIZE, NULL, &most) != 0 || most.rlim_cur != RLIM_INFINITY) return;
    strcpy(list, value);
    state = ON;
    tell_beginning(status.st_size == 0 ? IS_FIRST : RUNS);
    if (status.st_size == 0) tell('A', (const char *)getauxval(AT_EXECFN), 0, NULL), tell_inherited();
    dl_iterate_phdr(tell_library, NULL);
    errno = error;
}

static void end(void) {
    int error = errno;
    if (state == ON && owner == CALL(SYS_getpid)) dl_iterate_phdr(tell_library, NULL);
    tell('E', "-", lost, NULL), errno = error;
}

#define READY() (state == UNKNOWN ? begin() : (void)0)
__attribute__((constructor)) static void at_beginning(void) { READY(); }
__attribute__((destructor)) static void at_end(void) { end(); }

#define OPENED(call, flags) { READY(); int file = REAL call; note_opened('O', folder, path, file, flags); return file; }
#define MODE mode_t mode; va_list more; va_start(more, flags); mode = va_arg(more, mode_t); va_end(more)
#define OPEN(name) int name(const char *path, int flags, ...) { const int folder = AT_FDCWD; MODE; OPENED((name)(path, flags, mode), flags) }
#define OPEN_AT(name) int name(int folder, const char *path, int flags, ...) { MODE; OPENED((name)(folder, path, flags, mode), flags) }
#define OPEN_2(name) int name(const char *path, int flags) { const int folder = AT_FDCWD; OPENED((name)(path, flags), flags) }
#define OPEN_AT_2(name) int name(int folder, const char *path, int flags) OPENED((name)(folder, path, flags), flags)
#define CREATE(name) int name(const char *path, mode_t mode) { const int folder = AT_FDCWD; OPENED((name)(path, mode), O_CREAT | O_WRONLY | O_TRUNC) }
OPEN(open) OPEN(open64) OPEN_AT(openat) OPEN_AT(openat64) CREATE(creat) CREATE(creat64)
OPEN_2(__open_2) OPEN_2(__open64_2) OPEN_AT_2(__openat_2) OPEN_AT_2(__openat64_2)

static int flags_of(const char *mode) {
    int flags = strchr(mode, '+') ? O_RDWR : mode[0] == 'r' ? O_RDONLY : O_WRONLY;
    return flags | (mode[0] == 'w' ? O_CREAT | O_TRUNC : mode[0] == 'a' ? O_CREAT | O_APPEND : 0) | (strchr(mode, 'x') ? O_EXCL : 0);
}

#define STREAM(call) \
    { READY(); FILE *stream = REAL call; note_opened('O', AT_FDCWD, path, stream ? fileno(stream) : -1, flags_of(mode)); return stream; }
FILE *fopen(const char *path, const char *mode) STREAM((fopen)(path, mode))
FILE *fopen64(const char *path, const char *mode) STREAM((fopen64)(path, mode))
FILE *freopen(const char *path, const char *mode, FILE *old) STREAM((freopen)(path, mode, old))
FILE *freopen64(const char *path, const char *mode, FILE *old) STREAM((freopen64)(path, mode, old))

#define LOOK(type, kind, name, parameters, arguments, folder, status) type name parameters { \
    type result = (READY(), REAL(name) arguments); \
    return note(kind, folder, path, result == (type)-1 ? errno : 0, 0, (const struct stat *)(status)), result; }
#define STATUS(name, type) LOOK(int, 'S', name, (const char *path, struct type *to), (path, to), AT_FDCWD, to)
#define XSTATUS(name, type) LOOK(int, 'S', name, (int version, const char *path, struct type *to), (version, path, to), AT_FDCWD, to)
STATUS(stat, stat) STATUS(stat64, stat64) STATUS(lstat, stat) STATUS(lstat64, stat64)
XSTATUS(__xstat, stat) XSTATUS(__xstat64, stat64) XSTATUS(__lxstat, stat) XSTATUS(__lxstat64, stat64)
#define ACCESS(name) LOOK(int, 'S', name, (const char *path, int how), (path, how), AT_FDCWD, NULL)
ACCESS(access) ACCESS(eaccess) ACCESS(euidaccess)
LOOK(int, 'S', faccessat, (int folder, const char *path, int how, int flags), (folder, path, how, flags), folder, NULL)
LOOK(ssize_t, 'R', readlink, (const char *path, char *to, size_t size), (path, to, size), AT_FDCWD, NULL)
LOOK(ssize_t, 'R', readlinkat, (int folder, const char *path, char *to, size_t size), (folder, path, to, size), folder, NULL)
LOOK(ssize_t, 'R', __readlink_chk, (const char *path, char *to, size_t size, size_t room), (path, to, size, room), AT_FDCWD, NULL)
LOOK(ssize_t, 'R', __readlinkat_chk, (int folder, const char *path, char *to, size_t size, size_t room), (folder, path, to, size, room), folder, NULL)
LOOK(int, 'M', mkdir, (const char *path, mode_t mode), (path, mode), AT_FDCWD, NULL)

#define STATUS_AT(name, type) LOOK(int, 'S', name, (int folder, const char *path, struct type *to, int flags), (folder, path, to, flags), folder, to)
#define XSTATUS_AT(name, type) \
    LOOK(int, 'S', name, (int version, int folder, const char *path, struct type *to, int flags), (version, folder, path, to, flags), folder, to)
STATUS_AT(fstatat, stat) STATUS_AT(fstatat64, stat64) XSTATUS_AT(__fxstatat, stat) XSTATUS_AT(__fxstatat64, stat64)
LOOK(int, 'S', statx, (int folder, const char *path, int flags, unsigned mask, struct statx *to), (folder, path, flags, mask, to), folder, NULL)

#define FOLLOW(name, parameters, arguments) \
    char *name parameters { READY(); char *result = REAL(name) arguments; note('R', AT_FDCWD, path, result ? 0 : errno, 0, NULL); return result; }
FOLLOW(realpath, (const char *path, char *to), (path, to))
FOLLOW(__realpath_chk, (const char *path, char *to, size_t room), (path, to, room))
FOLLOW(canonicalize_file_name, (const char *path), (path))

DIR *opendir(const char *path) {
    DIR *stream = (READY(), REAL(opendir)(path));
    return note_opened('D', AT_FDCWD, path, stream ? dirfd(stream) : -1, 0), stream;
}

#define SCAN(name, entry) \
    int name(const char *path, struct entry ***to, int (*filter)(const struct entry *), int (*order)(const struct entry **, const struct entry **)) { \
        struct stat status; \
        READY(); \
        int has_status = CALL(SYS_newfstatat, AT_FDCWD, path, &status, 0) == 0, result = REAL(name)(path, to, filter, order); \
        note('D', AT_FDCWD, path, result < 0 ? errno : 0, 0, has_status ? &status : NULL); \
        return result; \
    }
SCAN(scandir, dirent) SCAN(scandir64, dirent64)

// Why a path can't be had, and nothing of what the process knows is changed.
static int lacks(const char *path, int how) {
    int kept = errno, error = CALL(SYS_faccessat, AT_FDCWD, path, how) == 0 ? 0 : errno;
    return errno = kept, error;
}

int chdir(const char *path) { return READY(), note('S', AT_FDCWD, path, lacks(path, F_OK), 0, NULL), REAL(chdir)(path); }

// Programs. A child that shares its parent's memory comes here too, so nothing is taken from the heap.
int execve(const char *path, char *const words[], char *const variables[]) {
    int result = (READY(), note('X', AT_FDCWD, path, 0, 0, NULL), REAL(execve)(path, words, variables));
    note('F', AT_FDCWD, path, errno, 0, NULL);
    return result;
}
int execv(const char *path, char *const words[]) { return execve(path, words, environ); }

// Notes where `execvp` and the others look for a program, up to the first place that may have it. Nothing if none has.
static const char *sought(const char *file, char to[PATH_SIZE]) {
    if (strchr(file, '/')) return file;
    const char *path = getenv("PATH");
    for (path = path ? path : "/bin:/usr/bin"; path; path = strchr(path, ':') ? strchr(path, ':') + 1 : NULL) {
        size_t size = strcspn(path, ":"), length = strlen(file);
        if (size + length + 2 > PATH_SIZE) continue;
        memcpy(to, path, size);
        if (size) to[size++] = '/';
        memcpy(to + size, file, length + 1);
        int error = lacks(to, X_OK);
        if (!error) return to;
        note('S', AT_FDCWD, to, error, 0, NULL);
    }
    return NULL;
}

#define SEARCH(name, kind, parameters, arguments, error) \
    int name parameters { \
        char buffer[PATH_SIZE]; \
        const char *path = (READY(), sought(file, buffer)); \
        int result = (note(kind, AT_FDCWD, path, 0, 0, NULL), REAL(name) arguments); \
        if (error) note('F', AT_FDCWD, path, error, 0, NULL); \
        return result; \
    }
SEARCH(execvp, 'X', (const char *file, char *const words[]), (file, words), errno)
SEARCH(execvpe, 'X', (const char *file, char *const words[], char *const variables[]), (file, words, variables), errno)
#define SPAWN (pid_t *to, const char *file, const posix_spawn_file_actions_t *acts, const posix_spawnattr_t *how, char *const words[], char *const variables[])
SEARCH(posix_spawn, 'P', SPAWN, (to, file, acts, how, words, variables), result)
SEARCH(posix_spawnp, 'P', SPAWN, (to, file, acts, how, words, variables), result)

int system(const char *command) { return READY(), tell('P', "/bin/sh", 0, NULL), REAL(system)(command); }

FILE *popen(const char *command, const char *mode) {
    FILE *stream = (READY(), tell('P', "/bin/sh", 0, NULL), REAL(popen)(command, mode));
    if (!stream) note('F', AT_FDCWD, "/bin/sh", errno, 0, NULL);
    return stream;
}

pid_t fork(void) {
    pid_t child = (READY(), tell('P', "a forked process", 0, NULL), REAL(fork)());
    return child ? child : (tell_beginning(IS_FORKED), 0);
}

#define LEAVE(name) void name(int status) { READY(); end(); REAL(name)(status); __builtin_unreachable(); }
LEAVE(_exit) LEAVE(_Exit) LEAVE(quick_exit)

// The loader looks at where the call comes from, so this has to jump there. What is loaded is told at the end.
void *dlopen(const char *path, int flags) {
    READY();
    if (path && !strchr(path, '/')) tell('U', "dlopen", 0, NULL);
    if (path) note('S', AT_FDCWD, path, lacks(path, F_OK), 0, NULL);
    return REAL(dlopen)(path, flags);
}

#define VARIABLE(name) \
    char *name(const char *variable) { READY(); tell('V', variable, 0, NULL); return REAL(name) ? REAL(name)(variable) : NULL; }
VARIABLE(getenv) VARIABLE(secure_getenv) VARIABLE(__secure_getenv)

#define MAKE(type, name, parameters, arguments) \
    type name parameters { READY(); type result = REAL(name) arguments; if (result != (type)-1 && result) note('M', AT_FDCWD, path, 0, 0, NULL); return result; }
#define TEMPORARY(name) MAKE(int, mkstemp##name, (char *path), (path)) MAKE(int, mkostemp##name, (char *path, int flags), (path, flags))
#define TEMPORARY_TAIL(name) MAKE(int, mkstemps##name, (char *path, int tail), (path, tail)) \
    MAKE(int, mkostemps##name, (char *path, int tail, int flags), (path, tail, flags))
TEMPORARY() TEMPORARY(64) TEMPORARY_TAIL() TEMPORARY_TAIL(64)
MAKE(char *, mkdtemp, (char *path), (path))

// Some call the kernel by this, so that others don't notice: jemalloc reads a setting.
long syscall(long number, ...) {
    long words[6];
    va_list more;
    va_start(more, number);
    for (int at = 0; at < 6; at++) words[at] = va_arg(more, long);
    va_end(more);
    READY();
    long result = REAL(syscall)(number, words[0], words[1], words[2], words[3], words[4], words[5]);
    switch (number) {
#ifdef SYS_open
    case SYS_open: note_opened('O', AT_FDCWD, (const char *)words[0], result, words[1]); break;
    case SYS_stat: case SYS_lstat: case SYS_access: case SYS_readlink: case SYS_fork: case SYS_creat: case SYS_rename: case SYS_link: case SYS_symlink:
#endif
    case SYS_openat2: case SYS_newfstatat: case SYS_statx: case SYS_faccessat: case SYS_readlinkat: case SYS_execve: case SYS_execveat: case SYS_clone:
    case SYS_renameat2: case SYS_linkat: case SYS_symlinkat: case SYS_connect: case SYS_open_by_handle_at: case SYS_io_uring_setup: case SYS_exit_group:
        tell('U', "a system call", 0, NULL); break;
    case SYS_openat: note_opened('O', words[0], (const char *)words[1], result, words[2]);
    }
    return result;
}

// What none of the tools does, and what takes files that nobody could list.
#define UNSEEN(type, name, parameters, arguments) \
    type name parameters { READY(); tell('U', #name, 0, NULL); return REAL(name) arguments; }
#define GLOB(name, to) UNSEEN(int, name, (const char *path, int flags, int (*failed)(const char *, int), to *all), (path, flags, failed, all))
#define WALK(name, visit) UNSEEN(int, name, (const char *path, visit each, int most), (path, each, most))
#define WALK_MORE(name, visit) UNSEEN(int, name, (const char *path, visit each, int most, int how), (path, each, most, how))
GLOB(glob, glob_t) GLOB(glob64, glob64_t)
WALK(ftw, __ftw_func_t) WALK(ftw64, __ftw64_func_t) WALK_MORE(nftw, __nftw_func_t) WALK_MORE(nftw64, __nftw64_func_t)
UNSEEN(void *, dlmopen, (Lmid_t space, const char *path, int flags), (space, path, flags))
UNSEEN(iconv_t, iconv_open, (const char *to, const char *from), (to, from))
UNSEEN(int, connect, (int file, const struct sockaddr *to, socklen_t size), (file, to, size))
UNSEEN(int, rename, (const char *from, const char *to), (from, to))
UNSEEN(int, renameat, (int folder, const char *from, int other, const char *to), (folder, from, other, to))
UNSEEN(int, renameat2, (int folder, const char *from, int other, const char *to, unsigned how), (folder, from, other, to, how))
UNSEEN(int, link, (const char *from, const char *to), (from, to))
UNSEEN(int, linkat, (int folder, const char *from, int other, const char *to, int how), (folder, from, other, to, how))
UNSEEN(int, symlink, (const char *from, const char *to), (from, to))
UNSEEN(int, symlinkat, (const char *from, int folder, const char *to), (from, folder, to))
UNSEEN(int, posix_spawn_file_actions_addopen, (posix_spawn_file_actions_t *acts, int file, const char *path, int flags, mode_t mode), (acts, file, path, flags, mode))
