/* Bytes from files and to files. A file that is written is there whole or not at all: its bytes go to another beside it, which is renamed
 * when all of them are there, and an interrupt removes that one. */
#include <errno.h>
#include <fcntl.h>
#include <signal.h>
#include <stdlib.h>
#include <string.h>
#include <sys/mman.h>
#include <sys/stat.h>
#include <time.h>
#include <unistd.h>

#include "cli.h"

enum { CHUNK = 1 << 20 };

static int fail_file(const char *path) {
    progress_over();
    return fail("%s: %s", path, strerror(errno));
}

/* ---- progress ---- */

static time_t began;
static int shown;

void progress(const char *what, uint64_t done, uint64_t of) {
    static time_t last;
    time_t now = time(NULL);
    if (!began) began = now;
    if (now == last || now < began + 2 || !isatty(fileno(cli.err))) return;
    last = now;
    shown = 1;
    if (of)
        fprintf(cli.err, "\rlepugaso: %s, %" PRIu64 " of %" PRIu64 " bytes, %.0f %%\033[K", what, done, of,
                100.0 * (double)done / (double)of);
    else
        fprintf(cli.err, "\rlepugaso: %s, %" PRIu64 " bytes\033[K", what, done);
    fflush(cli.err);
}

void progress_over(void) {
    if (shown) fprintf(cli.err, "\r\033[K");
    shown = 0;
    began = 0;
}

/* ---- interrupts ---- */

/* The files that stand half written beside others, the output of -o and a picture; what a signal's handler may look at is these names, and
 * how many there are. */
enum { MOST_WRITTEN = 2 };
static char half_written[MOST_WRITTEN][4096];
static volatile sig_atomic_t writing;

static void remove_half_written(void) {
    while (writing) unlink(half_written[--writing]);
}

static void interrupted(int number) {
    remove_half_written();
    if (shown) (void)!write(STDERR_FILENO, "\r\033[K", 4);
    signal(number, SIG_DFL);
    raise(number);
}

/* A mapped file that was cut while it was read. */
static void cut(int number) {
    static const char said[] = "lepugaso: a file became shorter while it was read\n";
    (void)number;
    remove_half_written();
    (void)!write(STDERR_FILENO, said, sizeof said - 1);
    _exit(FAILED);
}

void guard_interrupts(void) {
    static const int numbers[] = {SIGINT, SIGTERM, SIGHUP, SIGPIPE, SIGXFSZ};
    for (size_t k = 0; k < sizeof numbers / sizeof numbers[0]; k++)
        if (signal(numbers[k], interrupted) == SIG_IGN) signal(numbers[k], SIG_IGN);
    signal(SIGBUS, cut);
}

/* ---- reading ---- */

static int load_stream(const char *path, int fd, struct region *bytes) {
    size_t room = 0;
    for (;;) {
        if (bytes->len == room) {
            size_t more = room ? room * 2 : 65536;
            uint8_t *grown = more > room ? realloc(bytes->at, more) : NULL;
            if (!grown) {
                errno = ENOMEM;
                break;
            }
            bytes->at = grown;
            room = more;
        }
        ssize_t got = read(fd, bytes->at + bytes->len, room - bytes->len < CHUNK ? room - bytes->len : CHUNK);
        if (got == 0) {
            progress_over();
            return GOOD;
        }
        if (got < 0 && errno == EINTR) continue;
        if (got < 0) break;
        bytes->len += (size_t)got;
        progress("reading", bytes->len, 0);
    }
    fail_file(path);
    drop(bytes);
    return FAILED;
}

int load(const char *path, struct region *bytes) {
    memset(bytes, 0, sizeof *bytes);
    if (!strcmp(path, "-")) return load_stream("standard input", fileno(cli.in), bytes);
    struct stat is;
    int fd = open(path, O_RDONLY);
    if (fd < 0 || fstat(fd, &is)) {
        fail_file(path);
        if (fd >= 0) close(fd);
        return FAILED;
    }
    int status = GOOD;
    void *at = MAP_FAILED;
    if (S_ISREG(is.st_mode) && is.st_size > 0)
        at = mmap(NULL, (size_t)is.st_size, PROT_READ | PROT_WRITE, MAP_PRIVATE | MAP_NORESERVE, fd, 0);
    if (at != MAP_FAILED) {
        bytes->at = at;
        bytes->len = (size_t)is.st_size;
        bytes->mapped = 1;
    } else {
        status = load_stream(path, fd, bytes);
    }
    close(fd);
    return status;
}

void drop(struct region *bytes) {
    if (bytes->mapped)
        munmap(bytes->at, bytes->len);
    else
        free(bytes->at);
    memset(bytes, 0, sizeof *bytes);
}

/* ---- writing ---- */

int open_whole(const char *path, struct whole_file *to) {
    memset(to, 0, sizeof *to);
    struct stat is;
    /* What is no regular file, as /dev/null or a pipe, has no place to take. */
    if (!stat(path, &is) && !S_ISREG(is.st_mode)) {
        to->file = fopen(path, "wb");
        return to->file ? GOOD : fail_file(path);
    }
    /* Of a link, the file that it leads to is replaced. */
    to->path = realpath(path, NULL);
    if (!to->path) to->path = strdup(path);
    size_t room = to->path ? strlen(to->path) + 32 : 0;
    to->beside = room && room <= sizeof half_written[0] && writing < MOST_WRITTEN ? malloc(room) : NULL;
    if (!to->beside) {
        errno = to->path ? ENAMETOOLONG : ENOMEM;
        fail_file(path);
        free(to->path);
        return FAILED;
    }
    snprintf(to->beside, room, "%s.part-%ld", to->path, (long)getpid());
    strcpy(half_written[writing], to->beside);
    writing++;
    int fd = open(to->beside, O_WRONLY | O_CREAT | O_EXCL, 0666);
    if (fd >= 0) {
        to->file = fdopen(fd, "wb");
        if (!stat(to->path, &is) && (fchmod(fd, is.st_mode & 07777) || fchown(fd, is.st_uid, is.st_gid))) {
            /* Not ours to give: the new file is ours, with its own mode. */
        }
    }
    if (to->file) return GOOD;
    fail_file(path);
    if (fd >= 0) {
        close(fd);
        unlink(to->beside);
    }
    writing--;
    free(to->path);
    free(to->beside);
    return FAILED;
}

int close_whole(struct whole_file *to, int status) {
    const char *path = to->path ? to->path : "the output";
    int bad = ferror(to->file) || fflush(to->file);
    if (!bad && status == GOOD && to->beside) bad = fsync(fileno(to->file)) && errno != EINVAL;
    if (bad && status == GOOD) status = fail_file(path);
    if (fclose(to->file) && status == GOOD) status = fail_file(path);
    if (to->beside) {
        if (status == GOOD && rename(to->beside, to->path)) status = fail_file(path);
        if (status != GOOD) unlink(to->beside);
        writing--;
    }
    free(to->path);
    free(to->beside);
    return status;
}

static int put_all(FILE *to, const uint8_t *bytes, size_t len) {
    for (size_t done = 0; done < len;) {
        size_t part = len - done < CHUNK ? len - done : CHUNK;
        if (fwrite(bytes + done, 1, part, to) != part) return fail_file("the output");
        done += part;
        progress("writing", done, len);
    }
    progress_over();
    return GOOD;
}

int put_bytes(const uint8_t *bytes, size_t len) {
    if (isatty(fileno(cli.out))) return fail("what comes out is bytes, and no text for a terminal: say -o OUT, or send it on");
    return put_all(cli.out, bytes, len);
}

int replace(const char *path, const uint8_t *bytes, size_t len) {
    struct whole_file to;
    int status = open_whole(path, &to);
    return status ? status : close_whole(&to, put_all(to.file, bytes, len));
}

int overwrite(const char *path, uint64_t offset, const uint8_t *bytes, size_t len) {
    int fd = open(path, O_WRONLY);
    if (fd < 0) return fail_file(path);
    ssize_t put = pwrite(fd, bytes, len, (off_t)offset);
    int status = put == (ssize_t)len ? GOOD : fail_file(path);
    if (close(fd) && status == GOOD) status = fail_file(path);
    return status;
}

const uint8_t *nowhere(void) {
    static const uint8_t *space;
    if (!space) {
        void *at = mmap(NULL, LONGEST, PROT_READ, MAP_PRIVATE | MAP_ANONYMOUS | MAP_NORESERVE, -1, 0);
        if (at == MAP_FAILED) {
            fail("no address space of %" PRIu32 " bytes: %s", LONGEST, strerror(errno));
            return NULL;
        }
        space = at;
    }
    return space;
}
