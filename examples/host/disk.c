/* disk.c: a disk that keeps only what was made durable, for the tests of a host. It is preloaded:
 *
 *     cc -shared -fPIC -o disk.so disk.c -ldl
 *     DISK_FOLDER=.. DISK_IMAGE=.. DISK_AT=17 DISK_FAULT=crash LD_PRELOAD=./disk.so host serve ..
 *
 * Every call goes through to the real files of DISK_FOLDER. Beside them, the folder DISK_IMAGE has what a machine would
 * find that lost its power now:
 *
 *     names        "inode name" for each file that the folder had when it was last made durable
 *     data/INODE   the bytes of a file that were made durable
 *     dirty        "inode place bytes" for each write that was not, in their order; a file cut to nothing has place -1
 *     keep/INODE   a link to the file itself, so that no inode is used twice
 *     calls        one word for each call that was counted: create, write, sync, rename
 *
 * Call number DISK_AT meets DISK_FAULT: "crash" ends the process before the call; "short" writes half of the bytes, and
 * the next write finds no room; any other is a number, with which the call fails as errno. A sync that fails leaves the
 * writes before it neither durable nor dirty, as Linux does: who does not write them again loses them.
 */
#define _GNU_SOURCE
#include <dirent.h>
#include <dlfcn.h>
#include <errno.h>
#include <fcntl.h>
#include <signal.h>
#include <stdarg.h>
#include <stdio.h>
#include <stdlib.h>
#include <string.h>
#include <sys/stat.h>
#include <unistd.h>

enum { OTHER, FOLDER, FILE_IN_FOLDER };
enum { MAX_OPEN = 256, MAX_DIRTY = 4096, MAX_PATH = 4096 };

typedef struct {
    unsigned long inode;
    long place, bytes;
} range;

static const char *folder, *image, *fault;
static struct stat folder_found;
static int kind_of[MAX_OPEN];
static range dirty[MAX_DIRTY];
static size_t dirties;
static long at, calls;

#define REAL(name) ((__typeof__(&name))dlsym(RTLD_NEXT, #name))

static void in_image(char *path, const char *form, ...) {
    va_list words;
    int used = snprintf(path, MAX_PATH, "%s/", image);
    va_start(words, form);
    vsnprintf(path + used, (size_t)(MAX_PATH - used), form, words);
    va_end(words);
}

static _Noreturn void broken(const char *what) {
    fprintf(stderr, "disk.c: %s: %s\n", what, strerror(errno));
    abort();
}

static void keep_dirty(void) {
    char path[MAX_PATH];
    in_image(path, "dirty");
    FILE *file = fopen(path, "w");
    if (!file) broken(path);
    for (size_t k = 0; k < dirties; k++) fprintf(file, "%lu %ld %ld\n", dirty[k].inode, dirty[k].place, dirty[k].bytes);
    fclose(file);
}

__attribute__((constructor)) static void start(void) {
    char path[MAX_PATH];
    folder = getenv("DISK_FOLDER"), image = getenv("DISK_IMAGE"), fault = getenv("DISK_FAULT");
    if (!folder || !image) return;
    at = getenv("DISK_AT") ? atol(getenv("DISK_AT")) : 0;
    if (stat(folder, &folder_found) != 0) broken(folder);
    in_image(path, "dirty");
    FILE *file = fopen(path, "r");
    if (!file) return;
    range *r = dirty;
    while (fscanf(file, "%lu %ld %ld", &r->inode, &r->place, &r->bytes) == 3) r++, dirties++;
    fclose(file);
}

static int kind(int file) { return file >= 0 && file < MAX_OPEN ? kind_of[file] : OTHER; }

static unsigned long inode_of(int file) {
    struct stat found;
    if (fstat(file, &found) != 0) broken("fstat");
    return found.st_ino;
}

/* Counts a call, and says whether it is the one that fails. */
static int fails(const char *call) {
    char path[MAX_PATH];
    calls++;
    if (calls == at && strcmp(fault, "crash") == 0) kill(getpid(), SIGKILL);
    in_image(path, "calls");
    int file = REAL(open)(path, O_WRONLY | O_CREAT | O_APPEND, 0666);
    if (file < 0 || dprintf(file, "%s\n", call) < 0) broken(path);
    REAL(close)(file);
    if (at == 0 || strcmp(fault, "crash") == 0) return 0;
    if (strcmp(fault, "short") == 0) {
        errno = ENOSPC;
        return calls == at + 1 && strcmp(call, "write") == 0;
    }
    errno = atoi(fault);
    return calls == at;
}

static void note(unsigned long inode, long place, long bytes) {
    if (dirties == MAX_DIRTY) broken("too many writes");
    dirty[dirties++] = (range){inode, place, bytes};
    keep_dirty();
}

/* ---- Opening ---- */

/* Whether a path names something in the folder, and what. */
static const char *name_in_folder(int from, const char *path) {
    char above[MAX_PATH];
    struct stat found;
    const char *slash = strrchr(path, '/');
    if (!slash) return kind(from) == FOLDER ? path : NULL;
    snprintf(above, sizeof above, "%.*s", (int)(slash - path), path);
    if (stat(above, &found) != 0 || found.st_ino != folder_found.st_ino || found.st_dev != folder_found.st_dev) return NULL;
    return slash + 1;
}

/* A file that is made now has nothing durable; one that is cut now is to be cut on the disk too. */
static void note_opened(int file, const char *name, int flags, int was_there) {
    char path[MAX_PATH], kept[MAX_PATH];
    unsigned long inode = inode_of(file);
    if (!was_there) {
        snprintf(path, sizeof path, "%s/%s", folder, name);
        in_image(kept, "keep/%lu", inode);
        if (link(path, kept) != 0) broken(kept);
    } else if (flags & O_TRUNC)
        note(inode, -1, 0);
}

static int open_any(int from, const char *path, int flags, mode_t mode) {
    const char *name = image ? name_in_folder(from, path) : NULL;
    int was_there = faccessat(from, path, F_OK, 0) == 0;
    if (name && (flags & O_CREAT) && fails("create")) return -1;
    int file = REAL(openat)(from, path, flags, mode);
    if (file < 0 || file >= MAX_OPEN) return file;
    struct stat found;
    if (fstat(file, &found) != 0) broken("fstat");
    kind_of[file] = OTHER;
    if (image && found.st_ino == folder_found.st_ino && found.st_dev == folder_found.st_dev)
        kind_of[file] = FOLDER;
    else if (name && S_ISREG(found.st_mode)) {
        kind_of[file] = FILE_IN_FOLDER;
        note_opened(file, name, flags, was_there);
    }
    return file;
}

#define OPEN(from)                                          \
    va_list words;                                          \
    va_start(words, flags);                                 \
    mode_t mode = flags & O_CREAT ? va_arg(words, mode_t) : 0; \
    va_end(words);                                          \
    return open_any(from, path, flags, mode)

int open(const char *path, int flags, ...) { OPEN(AT_FDCWD); }
int open64(const char *path, int flags, ...) { OPEN(AT_FDCWD); }
int openat(int from, const char *path, int flags, ...) { OPEN(from); }
int openat64(int from, const char *path, int flags, ...) { OPEN(from); }

int close(int file) {
    if (file >= 0 && file < MAX_OPEN) kind_of[file] = OTHER;
    return REAL(close)(file);
}

/* ---- Writing ---- */

static ssize_t write_any(int file, const void *bytes, size_t count, off_t place) {
    if (fails("write")) return -1;
    if (calls == at && strcmp(fault, "short") == 0) count /= 2;
    ssize_t put = REAL(pwrite)(file, bytes, count, place);
    if (put > 0) note(inode_of(file), place, put);
    return put;
}

ssize_t pwrite(int file, const void *bytes, size_t count, off_t place) {
    if (kind(file) != FILE_IN_FOLDER) return REAL(pwrite)(file, bytes, count, place);
    return write_any(file, bytes, count, place);
}

ssize_t pwrite64(int file, const void *bytes, size_t count, off_t place) { return pwrite(file, bytes, count, place); }

ssize_t write(int file, const void *bytes, size_t count) {
    if (kind(file) != FILE_IN_FOLDER) return REAL(write)(file, bytes, count);
    ssize_t put = write_any(file, bytes, count, lseek(file, 0, SEEK_CUR));
    if (put > 0) lseek(file, put, SEEK_CUR);
    return put;
}

/* ---- Making durable ---- */

/* Brings a range of a file as it is to its image. */
static void bring(range r, int from, int to) {
    char byte[4096];
    if (r.place < 0 && ftruncate(to, 0) != 0) broken("ftruncate");
    for (long done = 0; r.place >= 0 && done < r.bytes;) {
        size_t count = (size_t)(r.bytes - done) < sizeof byte ? (size_t)(r.bytes - done) : sizeof byte;
        ssize_t got = pread(from, byte, count, r.place + done);
        if (got <= 0) return;
        if (REAL(pwrite)(to, byte, (size_t)got, r.place + done) != got) broken("pwrite");
        done += got;
    }
}

/* The file's writes are no longer dirty: they are in the image now, or lost. */
static void clean(unsigned long inode, int reaches_the_disk) {
    char path[MAX_PATH];
    in_image(path, "keep/%lu", inode);
    int from = REAL(open)(path, O_RDONLY);
    in_image(path, "data/%lu", inode);
    int to = REAL(open)(path, O_WRONLY | O_CREAT, 0666);
    if (from < 0 || to < 0) broken(path);
    size_t left = 0;
    for (size_t k = 0; k < dirties; k++)
        if (dirty[k].inode != inode)
            dirty[left++] = dirty[k];
        else if (reaches_the_disk)
            bring(dirty[k], from, to);
    dirties = left;
    REAL(close)(from), REAL(close)(to);
    keep_dirty();
}

static void keep_names(void) {
    char path[MAX_PATH];
    in_image(path, "names");
    FILE *file = fopen(path, "w");
    DIR *entries = opendir(folder);
    if (!file || !entries) broken(path);
    for (struct dirent *entry; (entry = readdir(entries));)
        if (entry->d_name[0] != '.') fprintf(file, "%lu %s\n", (unsigned long)entry->d_ino, entry->d_name);
    closedir(entries);
    fclose(file);
}

static int sync_any(int file) {
    int failed = fails("sync"), reason = errno;
    if (kind(file) == FILE_IN_FOLDER)
        clean(inode_of(file), !failed);
    else if (!failed)
        keep_names();
    errno = reason;
    return failed ? -1 : 0;
}

int fsync(int file) { return kind(file) == OTHER ? REAL(fsync)(file) : sync_any(file); }
int fdatasync(int file) { return kind(file) == OTHER ? REAL(fdatasync)(file) : sync_any(file); }

int renameat(int from, const char *path, int to, const char *new_path) {
    if (image && name_in_folder(from, path) && fails("rename")) return -1;
    return REAL(renameat)(from, path, to, new_path);
}

int rename(const char *path, const char *new_path) { return renameat(AT_FDCWD, path, AT_FDCWD, new_path); }
