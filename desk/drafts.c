/* Writing under a temporary name, so that a failure leaves the old file whole. The temporary name is the same for every
   draft of a target, and the file is locked while a desk works on the target. */
#include "desk.h"

#include <errno.h>
#include <fcntl.h>
#include <signal.h>
#include <stdlib.h>
#include <string.h>
#include <sys/stat.h>
#include <unistd.h>

/* A lock is tried again where another desk has just renamed or removed the locked file. */
#define MOST_TRIES 100u
/* Copies begin and end at multiples of this, which the blocks of the usual file systems divide: two files can share
   whole blocks, and then no byte is moved. */
#define BLOCK 65536u
#define TOLD_TO_END "told to end; nothing is written"

enum lock { LOCKED, GONE, TAKEN };

static const int ending_signals[] = {SIGHUP, SIGINT, SIGTERM};

/* Whether they wait, and what was blocked before. */
static bool signals_wait;
static sigset_t blocked_before;

/* The mode of a file that is made anew. */
static mode_t new_mode(void) {
    mode_t mask = umask(0);
    umask(mask);
    return 0666 & ~mask;
}

/* The file that a path names, through links, which need not exist; and the mode, owner and group of the new file. */
static bool find_target(struct draft *draft, struct why *why) {
    struct stat found;
    const char *path = draft->path;
    if (path[0] == '\0') return refuse(why, "a file without a name cannot be written");
    draft->mode = new_mode();
    draft->owner = geteuid();
    draft->group = (gid_t)-1;
    if (stat(path, &found) == 0) {
        if (!S_ISREG(found.st_mode)) return refuse(why, "%s: it is no ordinary file, and is left as it is", path);
        if (access(path, W_OK) != 0) return refuse(why, "%s: cannot be written: %s", path, strerror(errno));
        draft->mode = found.st_mode & 0777;
        draft->owner = found.st_uid;
        draft->group = found.st_gid;
    } else if (errno != ENOENT) {
        return refuse(why, "%s: cannot be written: %s", path, strerror(errno));
    }
    draft->target = behind_links(path);
    if (!draft->target) return refuse(why, "%s: cannot be written: %s", path, strerror(errno));
    const char *name = draft->target + folder_of(draft->target);
    if (name[0] == '\0') return refuse(why, "%s: cannot be written: it is the name of a folder", path);
    if (is_own_name(path)) {
        return refuse(why, "%s: names that begin with %s are the desk's own", path, OWN_NAME);
    }
    return true;
}

/* A name in the target's own folder, so that the renaming stays in one file system; as long for every target. */
static char *temporary_name(const char *target) {
    size_t folder = folder_of(target), room = folder + strlen(OWN_NAME) + 17;
    const char *name = target + folder;
    char *temporary = malloc(room);
    if (!temporary) return NULL;
    unsigned long long sum = sum_of((const uint8_t *)name, strlen(name));
    snprintf(temporary, room, "%.*s" OWN_NAME "%016llx", (int)folder, target, sum);
    return temporary;
}

/* Blocks the signals that end a program, but for those that were ignored from its start. */
static void let_signals_wait(void) {
    sigset_t ending;
    struct sigaction now;
    if (signals_wait) return;
    sigemptyset(&ending);
    for (size_t i = 0; i < COUNT_OF(ending_signals); i++) {
        if (sigaction(ending_signals[i], NULL, &now) == 0 && now.sa_handler != SIG_IGN) {
            sigaddset(&ending, ending_signals[i]);
        }
    }
    signals_wait = sigprocmask(SIG_BLOCK, &ending, &blocked_before) == 0;
}

void let_signals_come(void) {
    if (signals_wait) sigprocmask(SIG_SETMASK, &blocked_before, NULL);
    signals_wait = false;
}

static bool told_to_end(void) {
    sigset_t waiting;
    bool told = false;
    if (sigpending(&waiting) != 0) return false;
    for (size_t i = 0; i < COUNT_OF(ending_signals); i++) told |= sigismember(&waiting, ending_signals[i]) == 1;
    return told;
}

/* Opens the temporary file, or makes it; only an ordinary file with one name that the caller or the target's owner owns
   is taken. */
static enum lock open_temporary(const struct draft *draft, int *fd, struct why *why) {
    struct stat found;
    *fd = open(draft->temporary, O_RDWR | O_CREAT | O_NOFOLLOW | O_NONBLOCK | O_CLOEXEC, 0600);
    bool opened = *fd >= 0 && fstat(*fd, &found) == 0;
    if (!opened && errno != ELOOP && errno != EISDIR && errno != ENXIO) {
        refuse(why, "%s: %s, where it would be written first, cannot be opened: %s", draft->path, draft->temporary,
               strerror(errno));
        return TAKEN;
    }
    bool ours = opened && (found.st_uid == geteuid() || found.st_uid == draft->owner);
    if (ours && S_ISREG(found.st_mode) && found.st_nlink <= 1) {
        return found.st_nlink == 1 ? LOCKED : GONE;
    }
    refuse(why,
           "%s: %s, where it would be written first, is no ordinary file of yours alone: move it away or remove it, "
           "and try again",
           draft->path, draft->temporary);
    return TAKEN;
}

/* Whether the open file is the one that has the temporary name: another process may have removed or replaced it. */
static bool has_its_name(const struct draft *draft, int fd) {
    struct stat mine, named;
    return fstat(fd, &mine) == 0 && lstat(draft->temporary, &named) == 0 && mine.st_dev == named.st_dev &&
           mine.st_ino == named.st_ino;
}

/* Locks the whole file by fcntl, since such a lock names the process that holds it. */
static enum lock lock_file(const struct draft *draft, int fd, struct why *why) {
    struct flock lock = {.l_type = F_WRLCK, .l_whence = SEEK_SET};
    /* A lock on a file that has lost the temporary name locks nothing. */
    if (fcntl(fd, F_SETLK, &lock) == 0) return has_its_name(draft, fd) ? LOCKED : GONE;
    if (errno != EACCES && errno != EAGAIN) {
        refuse(why, "%s: %s, where it would be written first, cannot be locked: %s", draft->path, draft->temporary,
               strerror(errno));
        return TAKEN;
    }
    if (fcntl(fd, F_GETLK, &lock) == 0 && lock.l_type == F_UNLCK) return GONE;
    if (lock.l_pid > 0) {
        refuse(why, "another desk (process %ld) is at work on %s", (long)lock.l_pid, draft->path);
    } else {
        /* A process on another machine, over a network file system, has no number here. */
        refuse(why, "another desk is at work on %s", draft->path);
    }
    return TAKEN;
}

/* The temporary file, locked. A lock by fcntl is lost when any descriptor of its file is closed, so the file is opened
   only here, and the descriptor stays open to the end. */
static bool take_temporary(struct draft *draft, struct why *why) {
    for (unsigned tries = 0; tries < MOST_TRIES; tries++) {
        int fd;
        enum lock got = open_temporary(draft, &fd, why);
        if (got == LOCKED) got = lock_file(draft, fd, why);
        if (got == LOCKED) {
            draft->fd = fd;
            return true;
        }
        if (fd >= 0) close(fd);
        if (got == TAKEN) return false;
    }
    return refuse(why, "other desks are at work on %s, one after the other", draft->path);
}

bool names_file(const char *path, struct why *why) {
    return strcmp(path, "-") != 0 || misuse(why, "what is written needs the name of a file, and not -");
}

bool draft_open(struct draft *draft, const char *path, struct why *why) {
    *draft = (struct draft){.path = path, .fd = -1};
    if (!names_file(path, why) || !find_target(draft, why)) return false;
    draft->temporary = temporary_name(draft->target);
    if (!draft->temporary) return refuse(why, "%s: no memory for a name beside it", path);
    if (same_file("-", draft->temporary)) {
        return refuse(why, "%s: %s, where it would be written first, is standard input: give that file another name",
                      path, draft->temporary);
    }
    let_signals_wait();
    if (!take_temporary(draft, why)) return false;
    /* Drops what a killed desk left. */
    if (ftruncate(draft->fd, 0) == 0) return true;
    return refuse(why, "%s: cannot be written: %s", path, strerror(errno));
}

bool draft_write(struct draft *draft, const void *at, size_t len, struct why *why) {
    if (write_all(draft->fd, at, len)) return true;
    return refuse(why, "%s: cannot be written: %s", draft->path, strerror(errno));
}

/* Where the owner cannot be kept, since the caller may not give files away or the file system has no owners, only the
   group is set; where that fails too, the file stays the caller's. */
static void keep_owner(const struct draft *draft) {
    bool kept = fchown(draft->fd, draft->owner, draft->group) == 0 || fchown(draft->fd, (uid_t)-1, draft->group) == 0;
    (void)kept;
}

bool draft_seal(struct draft *draft, struct why *why) {
    keep_owner(draft);
    bool kept = fchmod(draft->fd, draft->mode) == 0 && (fsync(draft->fd) == 0 || errno == EINVAL);
    return kept ? true : refuse(why, "%s: cannot be written: %s", draft->path, strerror(errno));
}

/* Opens the folder of a file. */
static int open_folder(const char *target) {
    size_t len = folder_of(target);
    char *path = len ? strndup(target, len) : strdup(".");
    int fd = path ? open(path, O_RDONLY | O_DIRECTORY | O_CLOEXEC) : -1;
    free(path);
    return fd;
}

/* Brings a folder's names to the disk. A folder that may not be read cannot be synced, and is left. */
static bool sync_folder(const char *target) {
    int fd = open_folder(target);
    if (fd < 0) return errno == EACCES;
    bool synced = fsync(fd) == 0 || errno == EINVAL;
    int error = errno;
    close(fd);
    errno = error;
    return synced;
}

/* A file that has taken the temporary name meanwhile may be another desk's, and is not renamed. */
static bool is_kept(const struct draft *draft, struct why *why) {
    if (has_its_name(draft, draft->fd)) return true;
    return refuse(why, "%s: %s, where it was written first, was removed or replaced meanwhile; %s is not written",
                  draft->path, draft->temporary, draft->path);
}

bool draft_publish(struct draft *draft, struct why *why) {
    if (!is_kept(draft, why)) return false;
    if (rename(draft->temporary, draft->target) != 0) {
        return refuse(why, "%s: the new file cannot take its name: %s", draft->path, strerror(errno));
    }
    why->written++;
    free(draft->temporary);
    draft->temporary = NULL;
    if (sync_folder(draft->target)) return true;
    return refuse(why, "%s: it has its name, but its folder cannot be written: %s", draft->path, strerror(errno));
}

void draft_drop(struct draft *draft) {
    /* Only the holder of the lock removes the file, and no other file of its name; the lock is released last. */
    if (draft->fd >= 0 && draft->temporary && has_its_name(draft, draft->fd)) unlink(draft->temporary);
    if (draft->fd >= 0) close(draft->fd);
    free(draft->temporary);
    free(draft->target);
    *draft = NO_DRAFT;
}

bool group_open(struct group *group, const char *const paths[GROUP_FILES], struct why *why) {
    *group = NO_GROUP;
    /* Every desk locks the WAV before the shelf, so that of two desks at the same WAV and shelf one gets both. No desk
       waits for a lock: where one's NEW is the other's WAV or shelf, both may be refused, and then write nothing. */
    for (size_t i = 0; i < GROUP_FILES; i++) {
        if (paths[i] && !draft_open(&group->of[i], paths[i], why)) return false;
    }
    return true;
}

/* What is copied is what the source has then, and another program may have written to it since it was read: only what
   the draft has tells. */
static bool has_copied(const struct draft *draft, const struct content *content, size_t first, size_t len,
                       struct why *why) {
    bool same;
    if (!compare_bytes(draft->fd, first, content->bytes.at + first, len, &same)) {
        return refuse(why, "%s: what was written first cannot be read: %s", draft->path, strerror(errno));
    }
    return same ? true : refuse(why, "%s: another program wrote to it meanwhile; nothing is written", draft->path);
}

/* Appends bytes that the source has in the same place: by a copy of the file system's, as far as it makes one. */
static bool write_kept(struct draft *draft, const struct content *content, size_t first, size_t end, struct why *why) {
    size_t copied = copy_inside(*content->source, first, draft->fd, end - first), next = first + copied;
    return has_copied(draft, content, first, copied, why) &&
           draft_write(draft, content->bytes.at + next, end - next, why);
}

/* The blocks that have a new byte are written, and those before and after them copied. */
static bool write_over(struct draft *draft, const struct content *content, struct why *why) {
    size_t len = content->bytes.len, first = content->first / BLOCK * BLOCK, after = content->end + BLOCK - 1;
    size_t end = after < len ? after / BLOCK * BLOCK : len;
    return write_kept(draft, content, 0, first, why) &&
           draft_write(draft, content->bytes.at + first, end - first, why) && write_kept(draft, content, end, len, why);
}

static bool write_one(struct draft *draft, const struct content *content, struct why *why) {
    const struct bytes *bytes = &content->bytes;
    if (!bytes->at) return true;
    return (content->source ? write_over(draft, content, why) : draft_write(draft, bytes->at, bytes->len, why)) &&
           draft_seal(draft, why);
}

/* No file takes its name where the draft of one was removed or replaced. */
static bool all_kept(const struct group *group, const struct content *contents, struct why *why) {
    for (size_t i = 0; i < GROUP_FILES; i++) {
        if (contents[i].bytes.at && !is_kept(&group->of[i], why)) return false;
    }
    return true;
}

/* Where a file cannot take its name after another has, the same call can be made again, since the shelf takes its name
   last: it is still the old score's, and its sums show that a new WAV is not its own. Once a new score and its shelf
   have their names, the edits that made the score would be made on that. */
static bool publish_all(struct group *group, const struct content *contents, struct why *why) {
    const struct draft *has = NULL, *lacks = NULL;
    bool all = true;
    for (size_t i = 0; i < GROUP_FILES; i++) {
        struct draft *draft = &group->of[i];
        if (!contents[i].bytes.at) continue;
        all = all && draft_publish(draft, why);
        if (!draft->temporary) has = draft;
        if (draft->temporary && !lacks) lacks = draft;
    }
    why->edited = !lacks && contents[SCORE_FILE].bytes.at && contents[SHELF_FILE].bytes.at;
    if (all || !has) return all;
    if (!lacks) return preface(why, "%s: ", what_is_written(why));
    return preface(why, "%s is %s already, and %s is not; the same call can be made again: ", has->path,
                   has == &group->of[SCORE_FILE] ? "the new score" : "the new score's", lacks->path);
}

bool group_write(struct group *group, const struct content contents[GROUP_FILES], struct why *why) {
    /* A signal that came while the sound was made saves the writing. */
    if (told_to_end()) return refuse(why, TOLD_TO_END);
    for (size_t i = 0; i < GROUP_FILES; i++) {
        if (!write_one(&group->of[i], &contents[i], why)) return false;
    }
    if (!all_kept(group, contents, why)) return false;
    /* The last time: from the first name on all files take theirs. */
    if (told_to_end()) return refuse(why, TOLD_TO_END);
    return publish_all(group, contents, why);
}

void group_drop(struct group *group) {
    for (size_t i = GROUP_FILES; i-- > 0;) draft_drop(&group->of[i]);
}
