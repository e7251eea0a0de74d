/* Reading whole files, writing all of something, copying as much of it as goes, and which names are of one file. */
/* For copy_file_range. */
#define _GNU_SOURCE
#include "desk.h"

#include <errno.h>
#include <fcntl.h>
#include <poll.h>
#include <stdlib.h>
#include <string.h>
#include <sys/stat.h>
#include <unistd.h>

/* The most links in a row, and the most bytes in one, that Linux follows. */
#define MOST_LINKS 40u
#define MOST_LINK 4096u

static bool is_standard_input(const char *path) { return strcmp(path, "-") == 0; }

const char *shown_path(const char *path) { return is_standard_input(path) ? "standard input" : path; }

/* Reads until the room is full or the file ends; false with errno set where a read fails. */
static bool read_from(int fd, uint8_t *at, size_t room, size_t *len) {
    *len = 0;
    while (*len < room) {
        ssize_t got = read(fd, at + *len, room - *len);
        if (got == 0) return true;
        if (got > 0) {
            *len += (size_t)got;
        } else if (errno != EINTR) {
            return false;
        }
    }
    return true;
}

bool is_own_name(const char *path) {
    char *end = behind_links(path);
    bool own = end && strncmp(end + folder_of(end), OWN_NAME, strlen(OWN_NAME)) == 0;
    free(end);
    return own;
}

/* A file with a temporary name may vanish while another desk works, and so is not read. */
static int open_input(const char *path, struct why *why) {
    if (is_standard_input(path)) return STDIN_FILENO;
    if (is_own_name(path)) {
        refuse(why, "%s: names that begin with %s are the desk's own: give the file another name", path, OWN_NAME);
        return -1;
    }
    int fd = open(path, O_RDONLY | O_CLOEXEC);
    if (fd < 0) refuse(why, "%s: cannot be opened: %s", path, strerror(errno));
    return fd;
}

static void close_input(const char *path, int fd) {
    if (!is_standard_input(path)) close(fd);
}

bool read_into(const char *path, uint8_t *at, size_t room, size_t *len, struct why *why) {
    int fd = open_input(path, why);
    if (fd < 0) return false;
    bool read = read_from(fd, at, room, len);
    if (!read) refuse(why, "%s: cannot be read: %s", shown_path(path), strerror(errno));
    close_input(path, fd);
    return read;
}

/* Reads piece after piece into a growing buffer, up to most bytes and one more. */
static bool read_growing(int fd, size_t most, struct bytes *file) {
    size_t room = 0, got = 0;
    do {
        size_t more = room ? room : 65536;
        if (more > most + 1 - room) more = most + 1 - room;
        uint8_t *grown = realloc(file->at, room + more);
        if (!grown) return false;
        file->at = grown;
        room += more;
        if (!read_from(fd, file->at + file->len, room - file->len, &got)) return false;
        file->len += got;
    } while (file->len == room && room <= most);
    return true;
}

/* The whole of an open file. */
static bool read_whole_file(int fd, const char *path, size_t most, struct bytes *file, struct why *why) {
    *file = (struct bytes){.at = NULL};
    if (read_growing(fd, most, file)) return true;
    refuse(why, "%s: cannot be read: %s", shown_path(path), strerror(errno));
    free(file->at);
    *file = (struct bytes){.at = NULL};
    return false;
}

bool read_file(const char *path, size_t most, struct bytes *file, struct why *why) {
    *file = (struct bytes){.at = NULL};
    int fd = open_input(path, why);
    if (fd < 0) return false;
    bool fine = read_whole_file(fd, path, most, file, why);
    close_input(path, fd);
    return fine;
}

bool read_open_file(const char *path, size_t most, int *fd, struct bytes *file, struct why *why) {
    *fd = open_input(path, why);
    return *fd >= 0 && read_whole_file(*fd, path, most, file, why);
}

bool compare_bytes(int fd, size_t at, const uint8_t *bytes, size_t len, bool *same) {
    uint8_t piece[65536];
    *same = true;
    for (size_t seen = 0; seen < len && *same;) {
        ssize_t got = pread(fd, piece, len - seen < sizeof piece ? len - seen : sizeof piece, (off_t)(at + seen));
        if (got >= 0) {
            *same = got > 0 && memcmp(piece, bytes + seen, (size_t)got) == 0;
            seen += (size_t)got;
        } else if (errno != EINTR) {
            return false;
        }
    }
    return true;
}

/* Writes all, or answers false with errno set; waits while a pipe or a device is full. */
bool write_all(int fd, const void *at, size_t len) {
    const uint8_t *from = at;
    while (len > 0) {
        ssize_t put = write(fd, from, len);
        if (put >= 0) {
            from += put;
            len -= (size_t)put;
        } else if (errno == EAGAIN || errno == EWOULDBLOCK) {
            struct pollfd ready = {.fd = fd, .events = POLLOUT};
            poll(&ready, 1, -1);
        } else if (errno != EINTR) {
            return false;
        }
    }
    return true;
}

size_t copy_inside(int from, size_t at, int to, size_t len) {
    off_t next = (off_t)at;
    size_t copied = 0;
    while (copied < len) {
        ssize_t put = copy_file_range(from, &next, to, NULL, len - copied, 0);
        if (put > 0) {
            copied += (size_t)put;
        } else if (put == 0 || errno != EINTR) {
            break;
        }
    }
    return copied;
}

size_t folder_of(const char *path) {
    const char *slash = strrchr(path, '/');
    return slash ? (size_t)(slash - path) + 1 : 0;
}

/* Where a link leads, to be freed: a name that does not begin with a slash is in the link's own folder. */
static char *end_of_link(const char *link) {
    char text[MOST_LINK + 1];
    ssize_t len = readlink(link, text, MOST_LINK);
    if (len < 0) return NULL;
    text[len] = '\0';
    size_t folder = text[0] == '/' ? 0 : folder_of(link);
    char *name = malloc(folder + (size_t)len + 1);
    if (!name) return NULL;
    memcpy(name, link, folder);
    memcpy(name + folder, text, (size_t)len + 1);
    return name;
}

char *behind_links(const char *path) {
    char *name = strdup(path);
    for (unsigned links = 0; name && links <= MOST_LINKS; links++) {
        struct stat found;
        /* A name of no file ends the row of links, too. */
        if (lstat(name, &found) != 0 || !S_ISLNK(found.st_mode)) return name;
        char *next = end_of_link(name);
        free(name);
        name = next;
    }
    if (name) errno = ELOOP;
    free(name);
    return NULL;
}

static bool same_inode(const struct stat *one, const struct stat *other) {
    return one->st_dev == other->st_dev && one->st_ino == other->st_ino;
}

/* The folder in which a file of that name would be made. */
static bool look_at_folder(const char *name, struct stat *folder) {
    size_t len = folder_of(name);
    char *path = len ? strndup(name, len) : strdup(".");
    bool found = path && stat(path, folder) == 0;
    free(path);
    return found;
}

/* Whether two names of no file would name one: in the same folder, and with the same last name. */
static bool same_new_file(const char *one, const char *other) {
    struct stat a, b;
    char *ends[] = {behind_links(one), behind_links(other)};
    bool same = ends[0] && ends[1] && strcmp(ends[0] + folder_of(ends[0]), ends[1] + folder_of(ends[1])) == 0 &&
                look_at_folder(ends[0], &a) && look_at_folder(ends[1], &b) && same_inode(&a, &b);
    free(ends[0]);
    free(ends[1]);
    return same;
}

static bool look_at_file(const char *path, struct stat *found) {
    return (is_standard_input(path) ? fstat(STDIN_FILENO, found) : stat(path, found)) == 0;
}

bool same_file(const char *one, const char *other) {
    struct stat a, b;
    if (strcmp(one, other) == 0) return true;
    bool there = look_at_file(one, &a), other_there = look_at_file(other, &b);
    if (there != other_there) return false;
    return there ? same_inode(&a, &b) : same_new_file(one, other);
}
