#define _XOPEN_SOURCE 700
#include "files.h"

#include <errno.h>
#include <fcntl.h>
#include <signal.h>
#include <stdio.h>
#include <stdlib.h>
#include <string.h>
#include <sys/stat.h>
#include <unistd.h>

enum { TRIES = 100, ACCESS = 07777, LINKS_LIMIT = 40, PATH_ROOM = 4096 };

static bool is_dash(const char *path)
{
    return strcmp(path, "-") == 0;
}

static bool trouble(const char *path, const char *what)
{
    fprintf(stderr, "tampermauve: %s: %s: %s\n", *path != '\0' ? path : "''", what, strerror(errno));
    return false;
}

const char *input_name(const char *path)
{
    return is_dash(path) ? "standard input" : path;
}

bool file_read(const char *path, size_t most, struct bytes *to)
{
    FILE *in = is_dash(path) ? stdin : fopen(path, "rb");
    uint8_t part[4096];
    size_t got = 1;
    bool fine;
    if (in == NULL)
        return trouble(path, "cannot be opened");
    while (got > 0 && to->length < most) {
        got = fread(part, 1, most - to->length < sizeof part ? most - to->length : sizeof part, in);
        bytes_add(to, part, got);
    }
    fine = !ferror(in) || trouble(input_name(path), "cannot be read");
    if (in != stdin)
        fclose(in);
    return fine;
}

/* A file on its way: where it goes, and where it lies until it is whole. */
struct beside {
    char *place;
    char *name;
};

static char *copy_of(const char *text, size_t length)
{
    char *copy = memory_for(length + 1, 1);
    memcpy(copy, text, length);
    return copy;
}

/* The bytes of a path up to its last name: its folder, with the stroke. */
static size_t folder_length(const char *path)
{
    const char *stroke = strrchr(path, '/');
    return stroke != NULL ? (size_t)(stroke - path) + 1 : 0;
}

/* What a link holds, as a path from here; NULL if it cannot be read. */
static char *target_of(const char *link)
{
    char target[PATH_ROOM];
    struct bytes path = {0};
    ssize_t length = readlink(link, target, sizeof target - 1);
    if (length < 0)
        return NULL;
    target[length] = '\0';
    bytes_print(&path, "%.*s%s", *target == '/' ? 0 : (int)folder_length(link), link, target);
    return (char *)path.at;
}

static bool is_link(const char *path)
{
    struct stat there;
    return lstat(path, &there) == 0 && S_ISLNK(there.st_mode);
}

/* Where a name leads: a link's file is replaced, and not the link. NULL if it leads nowhere. */
static char *place_of(const char *path)
{
    char *place = copy_of(path, strlen(path));
    for (int links = 0; place != NULL && is_link(place); links++) {
        char *target = links < LINKS_LIMIT ? target_of(place) : NULL;
        errno = links < LINKS_LIMIT ? errno : ELOOP;
        free(place);
        place = target;
    }
    return place;
}

/* Opens a new file in the folder of a place; -1 if that cannot be. */
static int open_beside(struct beside *b)
{
    struct bytes name = {0};
    int opened = -1;
    for (int number = 0; number < TRIES && opened < 0; number++) {
        name.length = 0;
        bytes_print(&name, "%.*stampermauve-%ld-%d.part", (int)folder_length(b->place), b->place, (long)getpid(), number);
        opened = open((const char *)name.at, O_WRONLY | O_CREAT | O_EXCL, 0666);
        if (opened < 0 && errno != EEXIST)
            break;
    }
    b->name = (char *)name.at;
    return opened;
}

static bool write_all(int to, const uint8_t *from, size_t length)
{
    while (length > 0) {
        ssize_t wrote = write(to, from, length);
        if (wrote < 0 && errno != EINTR)
            return false;
        if (wrote > 0) {
            from += wrote;
            length -= (size_t)wrote;
        }
    }
    return true;
}

/* Writes a file beside its place, with the rights of the one that is there. */
static bool write_beside(const struct output *output, struct beside *b)
{
    struct stat there;
    int to = open_beside(b);
    bool whole;
    if (to < 0) {
        free(b->name);
        b->name = NULL;
        return false;
    }
    whole = write_all(to, output->bytes, output->length) && fsync(to) == 0;
    if (whole && stat(b->place, &there) == 0)
        whole = fchmod(to, there.st_mode & ACCESS) == 0;
    return close(to) == 0 && whole;
}

static bool is_folder(const char *path)
{
    struct stat there;
    return stat(path, &there) == 0 && S_ISDIR(there.st_mode);
}

static bool prepare(const struct output *output, struct beside *b)
{
    if (is_folder(output->path)) {
        errno = EISDIR;
        return trouble(output->path, "cannot be written");
    }
    b->place = place_of(output->path);
    return (b->place != NULL && write_beside(output, b)) || trouble(output->path, "cannot be written");
}

static bool is_special(const char *path)
{
    struct stat there;
    return stat(path, &there) == 0 && !S_ISREG(there.st_mode) && !S_ISDIR(there.st_mode);
}

/* Writes into what is there already: standard output, a pipe, a device. */
static bool write_straight(const struct output *output)
{
    FILE *out = is_dash(output->path) ? stdout : fopen(output->path, "wb");
    bool whole;
    if (out == NULL)
        return trouble(output->path, "cannot be opened");
    whole = fwrite(output->bytes, 1, output->length, out) == output->length && fflush(out) == 0;
    if (!whole)
        trouble(is_dash(output->path) ? "standard output" : output->path, "cannot be written");
    if (out != stdout)
        fclose(out);
    return whole;
}

static bool goes_straight(const struct output *output)
{
    return is_dash(output->path) || is_special(output->path);
}

static bool finish(const struct output *output, struct beside *b, bool fine)
{
    if (goes_straight(output))
        return fine && write_straight(output);
    if (b->name != NULL && (!fine || rename(b->name, b->place) != 0)) {
        fine = fine && trouble(output->path, "cannot be written");
        remove(b->name);
    }
    free(b->name);
    free(b->place);
    return fine;
}

bool files_write(const struct output *outputs, size_t count)
{
    struct beside *besides = memory_for(count, sizeof *besides);
    bool fine = true;
    signal(SIGXFSZ, SIG_IGN); /* a file that grows too long is trouble like any other */
    for (size_t i = 0; i < count && fine; i++)
        fine = goes_straight(&outputs[i]) || prepare(&outputs[i], &besides[i]);
    for (size_t i = 0; i < count; i++)
        fine = finish(&outputs[i], &besides[i], fine) && fine;
    free(besides);
    return fine;
}

bool on_terminal(void)
{
    return isatty(STDOUT_FILENO) != 0;
}

bool flush_output(void)
{
    if (fflush(stdout) == 0 && !ferror(stdout))
        return true;
    return trouble("standard output", "cannot be written");
}
