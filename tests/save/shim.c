/* Faults in calls on files, for a program's tests, preloaded; no part of any program. The calls are counted from 1.
   FILE_FAILS=N: the Nth fails with the number FILE_ERROR; where that isn't set, the program is killed before it. FILE_WRITES=N:
   right before the Nth, a line `foreign` is put at the end of FILE_TARGET in place, as by a program that knows no lock.
   FILE_CALLS names a file for how many calls there were. */
typedef unsigned long size;
typedef long ssize;
extern void *dlsym(void *, const char *);
extern char *getenv(const char *);
extern long atol(const char *), syscall(long, ...);
extern int *__errno_location(void), raise(int);

enum { KILLED = 9, SYS_WRITE = 1, SYS_OPEN = 2, SYS_CLOSE = 3, CREATES = 0100, IN_PLACE = 01 | 02000, NEW_FILE = 01 | 0100 | 01000 };
static long calls;

static long asked(const char *name) {
    char *text = getenv(name);
    return text ? atol(text) : 0;
}
static void put(const char *name, int flags, const char *bytes, long count) {
    if (!name) return;
    long file = syscall(SYS_OPEN, name, flags, 0666);
    if (file >= 0) {
        syscall(SYS_WRITE, file, bytes, count);
        syscall(SYS_CLOSE, file);
    }
}
__attribute__((destructor)) static void tell(void) {
    char digits[24];
    int at = 24;
    digits[--at] = '\n';
    long left = calls;
    do digits[--at] = '0' + left % 10; while (left /= 10);
    put(getenv("FILE_CALLS"), NEW_FILE, digits + at, 24 - at);
}
static int fails(void) {
    calls++;
    if (calls == asked("FILE_WRITES")) put(getenv("FILE_TARGET"), IN_PLACE, "foreign\n", 8);
    if (calls != asked("FILE_FAILS")) return 0;
    if (!getenv("FILE_ERROR")) raise(KILLED);
    *__errno_location() = (int)asked("FILE_ERROR");
    return 1;
}
#define NEXT(type, name) type = (__typeof__(next))dlsym((void *)-1, name)

int open(const char *path, int flags, ...) {
    int NEXT((*next)(const char *, int, unsigned), "open");
    unsigned mode = 0;
    if (flags & CREATES) {
        __builtin_va_list more;
        __builtin_va_start(more, flags);
        mode = __builtin_va_arg(more, unsigned);
        __builtin_va_end(more);
    }
    return fails() ? -1 : next(path, flags, mode);
}
ssize read(int file, void *to, size n) {
    ssize NEXT((*next)(int, void *, size), "read");
    return fails() ? -1 : next(file, to, n);
}
ssize write(int file, const void *from, size n) {
    ssize NEXT((*next)(int, const void *, size), "write");
    return fails() ? -1 : next(file, from, n);
}
long lseek(int file, long to, int from) {
    long NEXT((*next)(int, long, int), "lseek");
    return fails() ? -1 : next(file, to, from);
}
int fsync(int file) {
    int NEXT((*next)(int), "fsync");
    return fails() ? -1 : next(file);
}
int fchmod(int file, unsigned mode) {
    int NEXT((*next)(int, unsigned), "fchmod");
    return fails() ? -1 : next(file, mode);
}
int fchown(int file, unsigned user, unsigned group) {
    int NEXT((*next)(int, unsigned, unsigned), "fchown");
    return fails() ? -1 : next(file, user, group);
}
int flock(int file, int how) {
    int NEXT((*next)(int, int), "flock");
    return fails() ? -1 : next(file, how);
}
int rename(const char *from, const char *to) {
    int NEXT((*next)(const char *, const char *), "rename");
    return fails() ? -1 : next(from, to);
}
int link(const char *from, const char *to) {
    int NEXT((*next)(const char *, const char *), "link");
    return fails() ? -1 : next(from, to);
}
int ftruncate(int file, long length) {
    int NEXT((*next)(int, long), "ftruncate");
    return fails() ? -1 : next(file, length);
}
int unlink(const char *path) {
    int NEXT((*next)(const char *), "unlink");
    return fails() ? -1 : next(path);
}
char *realpath(const char *path, char *to) {
    char *NEXT((*next)(const char *, char *), "realpath");
    return fails() ? 0 : next(path, to);
}
int statx(int file, const char *path, int flags, unsigned mask, void *to) {
    int NEXT((*next)(int, const char *, int, unsigned, void *), "statx");
    return fails() ? -1 : next(file, path, flags, mask, to);
}
