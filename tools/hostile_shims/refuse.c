// Refuses the k-th call that a program makes of the C library: for memory, or over files.
//
// tools/hostile compiles this file and loads it in front of the C library (LD_PRELOAD). What to refuse stands in the environment:
//   HOSTILE_WATCH  the calls that are counted: memory, files, transfers (reads and writes) or writes
//   HOSTILE_AT     the number of the counted call to refuse, from 1; 0 refuses none
//   HOSTILE_ON     1 where all counted calls after it are refused too
//   HOSTILE_ERROR  the errno of a refused call; or -1 to move one byte instead, or -2 to move none, of a read or a write
//   HOSTILE_DRIP   1 where each read and write moves at most one byte
//   HOSTILE_TOLD   a file of the size of struct told, which tells afterwards what was counted and refused
//
// A single run by hand, with the 17th request for memory refused:
//   gcc -shared -fPIC -o /tmp/refuse.so tools/hostile_shims/refuse.c -ldl && head -c 5000 /dev/zero > /tmp/told
//   LD_PRELOAD=/tmp/refuse.so HOSTILE_TOLD=/tmp/told HOSTILE_WATCH=memory HOSTILE_AT=17 HOSTILE_ERROR=12
//       crates/lorry_plan/out/lorry_plan plan examples/first-trip any 1 3 26563680 26564080
//
// What the C library calls inside itself passes by: the pages behind malloc and a thread's stack are refused at malloc and at
// pthread_create alone.
#define _GNU_SOURCE
#include <dlfcn.h>
#include <errno.h>
#include <fcntl.h>
#include <pthread.h>
#include <stdarg.h>
#include <stdio.h>
#include <stdlib.h>
#include <string.h>
#include <sys/mman.h>
#include <sys/syscall.h>
#include <sys/uio.h>
#include <unistd.h>

enum kind { MEMORY = 1, OPENING = 2, READING = 4, WRITING = 8 };
enum { ONE_BYTE = -1, NO_BYTE = -2 };
enum { MOST_FILES = 256, MOST_PATH = 4400 };

// What was counted and refused, and the last call of those that were. tools/hostile reads these bytes.
struct told {
  unsigned long calls;
  unsigned long refused;
  char call[24];
  char way[8];
  char path[MOST_PATH];
};

static struct told *told;
static int watched, error, goes_on, drips;
static unsigned long at;

// The files that are open, by their descriptors: "reads" or "writes", and the path.
static struct {
  const char *way;
  char path[MOST_PATH];
} files[MOST_FILES];

static long number_of(const char *name) {
  const char *text = getenv(name);
  return text ? atol(text) : 0;
}

static int kinds_of(const char *watch) {
  if (!watch) return 0;
  if (!strcmp(watch, "memory")) return MEMORY;
  if (!strcmp(watch, "files")) return OPENING | READING | WRITING;
  if (!strcmp(watch, "transfers")) return READING | WRITING;
  return strcmp(watch, "writes") ? 0 : WRITING;
}

// Where no file to tell to is named, nothing is counted and every call passes.
__attribute__((constructor)) static void begin(void) {
  const char *path = getenv("HOSTILE_TOLD");
  int file = path ? syscall(SYS_openat, AT_FDCWD, path, O_RDWR, 0) : -1;
  if (file < 0) return;
  void *page = (void *)syscall(SYS_mmap, 0, sizeof *told, PROT_READ | PROT_WRITE, MAP_SHARED, file, 0);
  syscall(SYS_close, file);
  if (page == MAP_FAILED) return;
  error = number_of("HOSTILE_ERROR");
  goes_on = number_of("HOSTILE_ON");
  drips = number_of("HOSTILE_DRIP");
  at = number_of("HOSTILE_AT");
  watched = kinds_of(getenv("HOSTILE_WATCH"));
  told = page;
}

static const char *way_of(int file) {
  if (file == STDOUT_FILENO && !files[file].way) return "output";
  return file >= 0 && file < MOST_FILES && files[file].way ? files[file].way : "other";
}

static const char *path_of(int file) {
  return file >= 0 && file < MOST_FILES ? files[file].path : "";
}

static void tell(const char *call, const char *way, const char *path) {
  snprintf(told->call, sizeof told->call, "%s", call);
  snprintf(told->way, sizeof told->way, "%s", way);
  snprintf(told->path, sizeof told->path, "%s", path);
}

// Counts the call, and answers whether it is refused; then errno is set.
static int is_refused(enum kind kind, const char *call, const char *way, const char *path) {
  if (!told || !(watched & kind)) return 0;
  unsigned long number = __atomic_add_fetch(&told->calls, 1, __ATOMIC_SEQ_CST);
  if (!at || number < at || (number > at && !goes_on)) return 0;
  __atomic_fetch_add(&told->refused, 1, __ATOMIC_SEQ_CST);
  tell(call, way, path);
  errno = error;
  return 1;
}

static int is_refused_over(enum kind kind, const char *call, int file) {
  return is_refused(kind, call, way_of(file), path_of(file));
}

// ---- Memory ----

extern void *__libc_malloc(size_t), *__libc_calloc(size_t, size_t), *__libc_realloc(void *, size_t);

void *malloc(size_t size) {
  return is_refused(MEMORY, "malloc", "memory", "") ? NULL : __libc_malloc(size);
}

void *calloc(size_t count, size_t size) {
  return is_refused(MEMORY, "calloc", "memory", "") ? NULL : __libc_calloc(count, size);
}

void *realloc(void *old, size_t size) {
  return is_refused(MEMORY, "realloc", "memory", "") ? NULL : __libc_realloc(old, size);
}

void *mmap(void *place, size_t size, int access, int flags, int file, off_t from) {
  if (is_refused(MEMORY, "mmap", "memory", "")) return MAP_FAILED;
  return (void *)syscall(SYS_mmap, place, size, access, flags, file, from);
}

// A thread needs a stack. Where there is none, the call itself returns the error.
int pthread_create(pthread_t *thread, const pthread_attr_t *how, void *(*body)(void *), void *given) {
  static int (*create)(pthread_t *, const pthread_attr_t *, void *(*)(void *), void *);
  if (is_refused(MEMORY, "pthread_create", "memory", "")) return EAGAIN;
  if (!create) create = dlsym(RTLD_NEXT, "pthread_create");
  return create(thread, how, body, given);
}

// ---- Files ----

static const char *way_of_flags(int flags) {
  return (flags & O_ACCMODE) == O_RDONLY ? "reads" : "writes";
}

static void keep(int file, const char *path, int flags) {
  if (file < 0 || file >= MOST_FILES) return;
  snprintf(files[file].path, MOST_PATH, "%s", path);
  files[file].way = way_of_flags(flags);
}

static int open_from(int folder, const char *path, int flags, mode_t mode) {
  if (is_refused(OPENING, "open", way_of_flags(flags), path)) return -1;
  int file = syscall(SYS_openat, folder, path, flags, mode);
  keep(file, path, flags);
  return file;
}

static mode_t mode_in(int flags, va_list rest) {
  return flags & (O_CREAT | O_TMPFILE) ? va_arg(rest, mode_t) : 0;
}

int open(const char *path, int flags, ...) {
  va_list rest;
  va_start(rest, flags);
  mode_t mode = mode_in(flags, rest);
  va_end(rest);
  return open_from(AT_FDCWD, path, flags, mode);
}

int openat(int folder, const char *path, int flags, ...) {
  va_list rest;
  va_start(rest, flags);
  mode_t mode = mode_in(flags, rest);
  va_end(rest);
  return open_from(folder, path, flags, mode);
}

// A refused close closes all the same, as on Linux.
int close(int file) {
  int refused = is_refused_over(OPENING, "close", file), told_error = errno;
  int answer = syscall(SYS_close, file);
  if (file >= 0 && file < MOST_FILES) files[file].way = NULL;
  if (!refused) return answer;
  errno = told_error;
  return -1;
}

off_t lseek(int file, off_t to, int from) {
  return is_refused_over(OPENING, "lseek", file) ? -1 : syscall(SYS_lseek, file, to, from);
}

int fsync(int file) {
  return is_refused_over(OPENING, "fsync", file) ? -1 : syscall(SYS_fsync, file);
}

int fdatasync(int file) {
  return is_refused_over(OPENING, "fdatasync", file) ? -1 : syscall(SYS_fdatasync, file);
}

int ftruncate(int file, off_t size) {
  return is_refused_over(OPENING, "ftruncate", file) ? -1 : syscall(SYS_ftruncate, file, size);
}

int rename(const char *from, const char *to) {
  return is_refused(OPENING, "rename", "writes", to) ? -1 : syscall(SYS_renameat2, AT_FDCWD, from, AT_FDCWD, to, 0);
}

int unlink(const char *path) {
  return is_refused(OPENING, "unlink", "writes", path) ? -1 : syscall(SYS_unlinkat, AT_FDCWD, path, 0);
}

// How many of these bytes a read or a write may move, or -1 where it fails.
static ssize_t allowed(enum kind kind, const char *call, int file, size_t count) {
  int refused = is_refused_over(kind, call, file);
  if (refused && error == NO_BYTE) return 0;
  if (refused && error != ONE_BYTE) return -1;
  return (refused || drips) && count > 1 ? 1 : (ssize_t)count;
}

ssize_t read(int file, void *bytes, size_t count) {
  ssize_t most = allowed(READING, "read", file, count);
  return most <= 0 ? most : syscall(SYS_read, file, bytes, most);
}

ssize_t pread(int file, void *bytes, size_t count, off_t from) {
  ssize_t most = allowed(READING, "pread", file, count);
  return most <= 0 ? most : syscall(SYS_pread64, file, bytes, most, from);
}

ssize_t write(int file, const void *bytes, size_t count) {
  ssize_t most = allowed(WRITING, "write", file, count);
  return most <= 0 ? most : syscall(SYS_write, file, bytes, most);
}

// The same call by glibc's own name for it.
ssize_t __write(int file, const void *bytes, size_t count) {
  return write(file, bytes, count);
}

ssize_t pwrite(int file, const void *bytes, size_t count, off_t from) {
  ssize_t most = allowed(WRITING, "pwrite", file, count);
  return most <= 0 ? most : syscall(SYS_pwrite64, file, bytes, most, from);
}

// Of several parts a short write takes the first byte of the first part that has one; in that form it is one write.
ssize_t writev(int file, const struct iovec *parts, int count) {
  size_t whole = 0;
  for (int i = 0; i < count; i++) whole += parts[i].iov_len;
  ssize_t most = allowed(WRITING, "writev", file, whole);
  if (most <= 0) return most;
  if ((size_t)most == whole) return syscall(SYS_writev, file, parts, count);
  while (!parts->iov_len) parts++;
  return syscall(SYS_write, file, parts->iov_base, 1);
}
