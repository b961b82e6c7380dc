/* Lets a command meet every fault at each of its system calls in turn, and judges what each leaves.
   usage: faults CASE REPLACED APPENDED AGAIN COMMAND [ARGUMENT ..]
   in a folder that has old/ and new/, the files before and after the whole command, and desk/, in which it is run.
   REPLACED   files that are the old one or the new one to the byte, with commas between, in the order in which they move
   APPENDED   the journal, which gets one line before any file moves; - for none
   AGAIN      what the same command does where its work is done already: 0, the same once more; a cause, it is refused
              and the journal gets a line that says so; -, more work, so it is not run again
   All other files are read alone. A journal loses no whole line, REPLACED.new is the only other file that may be left,
   what the command says of the files is so, and run again it completes its work: at once, or once the locks that it names
   are gone. */
#define _GNU_SOURCE
#include "fault_at.h"

#include <dirent.h>
#include <errno.h>
#include <fcntl.h>
#include <stdarg.h>
#include <stdio.h>
#include <stdlib.h>
#include <string.h>
#include <unistd.h>

#define FILES 8
#define BYTES 262144

enum { NEVER = -1 };

enum access { READ, REPLACED, APPENDED };

/* BEGUN: a journal with part of its line, which is neither. */
enum state { OLD, BEGUN, NEW, STATES };

struct bytes {
    int is_there;
    size_t size;
    char *at;
};

struct file {
    char name[64];
    char lock[72];
    enum access access;
    int rank; /* a file of a lower rank is written first */
    enum state state;
    struct bytes old;
    struct bytes new;
    size_t whole; /* so many bytes of a journal's old ones are whole lines */
};

static struct file files[FILES];
static int file_count;
static int written;

static const char *case_name;
static int again;
static char **command;
static struct message message;

static const char *const fault_names[FAULTS] = {"killed before", "killed after", "failing"};
static enum fault fault;
static long at;

_Noreturn static void fail(const char *form, ...)
{
    va_list values;
    va_start(values, form);
    fprintf(stderr, "faults: %s", case_name);
    if (at != 0)
        fprintf(stderr, ", %s call %ld", fault_names[fault], at);
    fprintf(stderr, ": ");
    vfprintf(stderr, form, values);
    fprintf(stderr, "\n%s", message.text);
    va_end(values);
    exit(1);
}

/* Files, the desk being the current folder. */

static struct bytes read_bytes(const char *path)
{
    static char space[BYTES];
    struct bytes bytes = {0, 0, space};
    int fd = open(path, O_RDONLY | O_CLOEXEC);
    if (fd == -1) {
        if (errno != ENOENT)
            give_up(path);
        return bytes;
    }
    ssize_t got;
    while ((got = read(fd, space + bytes.size, sizeof space - bytes.size)) > 0)
        bytes.size += (size_t)got;
    if (got != 0 || bytes.size == sizeof space)
        give_up(path);
    close(fd);
    bytes.is_there = 1;
    return bytes;
}

static struct bytes keep(struct bytes bytes)
{
    char *at_hand = malloc(bytes.size + 1);
    if (at_hand == NULL)
        give_up("memory");
    memcpy(at_hand, bytes.at, bytes.size);
    bytes.at = at_hand;
    return bytes;
}

static void put_back(const char *name, struct bytes bytes)
{
    if (!bytes.is_there) {
        if (unlink(name) != 0 && errno != ENOENT)
            give_up(name);
        return;
    }
    int fd = open(name, O_WRONLY | O_CREAT | O_TRUNC | O_CLOEXEC, 0644);
    if (fd == -1 || write(fd, bytes.at, bytes.size) != (ssize_t)bytes.size || close(fd) != 0)
        give_up(name);
}

static int is_same(struct bytes a, struct bytes b)
{
    return a.is_there == b.is_there && a.size == b.size && memcmp(a.at, b.at, a.size) == 0;
}

/* Whether a begins with so many bytes of b. */
static int begins(struct bytes a, struct bytes b, size_t size)
{
    return size <= a.size && size <= b.size && memcmp(a.at, b.at, size) == 0;
}

static size_t whole_lines(struct bytes bytes)
{
    const char *last = memrchr(bytes.at, '\n', bytes.size);
    return last == NULL ? 0 : (size_t)(last - bytes.at) + 1;
}

/* Whether one line, and nothing else, stands behind so many bytes. */
static int is_one_line(struct bytes bytes, size_t from)
{
    return from < bytes.size && memchr(bytes.at + from, '\n', bytes.size - from) == bytes.at + bytes.size - 1;
}

/* The case: what the command reads and writes. */

static void add_file(const char *name)
{
    char path[80];
    if (file_count == FILES || strlen(name) >= sizeof files[0].name)
        give_up("too many files, or too long a name");
    struct file *file = &files[file_count++];
    strcpy(file->name, name);
    snprintf(file->lock, sizeof file->lock, "%s.new", name);
    snprintf(path, sizeof path, "../old/%s", name);
    file->old = keep(read_bytes(path));
    snprintf(path, sizeof path, "../new/%s", name);
    file->new = keep(read_bytes(path));
    file->whole = whole_lines(file->old);
    put_back(name, file->old);
}

static struct file *file_named(const char *name)
{
    for (struct file *file = files; file < files + file_count; file++)
        if (strcmp(file->name, name) == 0)
            return file;
    return NULL;
}

static void add_files(const char *path)
{
    DIR *folder = opendir(path);
    if (folder == NULL)
        give_up(path);
    for (struct dirent *entry; (entry = readdir(folder)) != NULL;)
        if (entry->d_name[0] != '.' && file_named(entry->d_name) == NULL)
            add_file(entry->d_name);
    closedir(folder);
}

static void set_access(char *names, enum access access)
{
    int rank = access == REPLACED;
    for (char *name = strtok(names, ","); name != NULL; name = strtok(NULL, ",")) {
        struct file *file = file_named(name);
        if (file == NULL)
            fail("there is no %s", name);
        file->access = access;
        file->rank = rank++;
        written++;
    }
}

/* What the whole command did is what the case says. */
static void check_case(void)
{
    for (struct file *file = files; file < files + file_count; file++) {
        if (is_same(file->old, file->new) != (file->access == READ))
            fail("the whole command %s %s", file->access == READ ? "changed" : "did not change", file->name);
        if (file->access != APPENDED)
            continue;
        if (!begins(file->new, file->old, file->whole))
            fail("the whole command changed the whole lines of %s", file->name);
        if (!is_one_line(file->new, file->whole))
            fail("the whole command added no single line to %s", file->name);
    }
}

/* What is left on the desk. */

static enum state state_of(const struct file *file, struct bytes found)
{
    if (is_same(found, file->old))
        return OLD;
    if (is_same(found, file->new))
        return NEW;
    if (file->access != APPENDED)
        fail("%s is neither the old one nor the new one", file->name);
    if (found.size < file->whole)
        fail("%s has lost something", file->name);
    if (!begins(found, file->new, found.size))
        fail("%s has something else than the one line", file->name);
    return found.size == file->whole ? OLD : BEGUN;
}

/* Whether it is the lock of a file that is replaced. */
static int is_lock(const char *name)
{
    for (const struct file *file = files; file < files + file_count; file++)
        if (file->access == REPLACED && strcmp(file->lock, name) == 0)
            return 1;
    return 0;
}

/* Answers how many locks are left. */
static int count_locks(void)
{
    int locks = 0;
    DIR *folder = opendir(".");
    if (folder == NULL)
        give_up("desk");
    for (struct dirent *entry; (entry = readdir(folder)) != NULL;) {
        if (strcmp(entry->d_name, ".") == 0 || strcmp(entry->d_name, "..") == 0)
            continue;
        if (is_lock(entry->d_name))
            locks++;
        else if (file_named(entry->d_name) == NULL)
            fail("%s is left", entry->d_name);
    }
    closedir(folder);
    return locks;
}

/* How many of the written files are in each state. */
struct left {
    int in[STATES];
};

static struct left look(void)
{
    struct left left = {{0}};
    for (struct file *file = files; file < files + file_count; file++) {
        file->state = state_of(file, read_bytes(file->name));
        if (file->access != READ)
            left.in[file->state]++;
    }
    return left;
}

static void check_order(void)
{
    for (const struct file *file = files; file < files + file_count; file++)
        for (const struct file *other = files; other < files + file_count; other++)
            if (file->access != READ && other->access != READ && file->rank < other->rank && file->state != NEW &&
                other->state == NEW)
                fail("%s is new and %s is not", other->name, file->name);
}

static void check_words(struct left left)
{
    if (strstr(message.text, "nothing was changed") != NULL && left.in[OLD] != written)
        fail("it says that nothing was changed");
    if (strstr(message.text, "did move") != NULL && left.in[NEW] == 0)
        fail("it says that something did move");
}

/* The same command once more. */

static int remove_named_locks(void)
{
    int removed = 0;
    for (struct file *file = files; file < files + file_count; file++)
        removed += strstr(message.text, file->lock) != NULL && unlink(file->lock) == 0;
    return removed;
}

/* The journal has one line more than the new one, which says that the call was refused. */
static void check_refused(const struct file *file)
{
    char end[16];
    struct bytes found = read_bytes(file->name);
    size_t size = (size_t)snprintf(end, sizeof end, " = %d\n", again);
    if (!begins(found, file->new, file->new.size) || !is_one_line(found, file->new.size) || found.size < size ||
        memcmp(found.at + found.size - size, end, size) != 0)
        fail("the same command was refused then, and %s has no line of it", file->name);
}

static void complete(int is_done)
{
    if (is_done && again == NEVER) {
        if (count_locks() != 0)
            fail("the work is done, and a lock is left");
        return;
    }
    int is_refused = is_done && again != 0;
    int status = run(command, &message);
    if (status == 2 && remove_named_locks() != 0)
        status = run(command, &message);
    if (status != is_refused)
        fail("the same command then ended with %d", status);
    if (count_locks() != 0)
        fail("the same command then left a lock");
    for (const struct file *file = files; file < files + file_count; file++)
        if (is_refused && file->access == APPENDED)
            check_refused(file);
        else if (!is_same(read_bytes(file->name), file->new))
            fail("the same command then left another %s", file->name);
}

/* Every fault at every call. */

static void set_desk(void)
{
    for (const struct file *file = files; file < files + file_count; file++)
        if (file->access != READ)
            put_back(file->name, file->old);
}

static void meet_all(void)
{
    int all_old = 0, all_new = 0, between = 0, locked = 0;
    enum met met;
    for (at = 1;; at++) {
        set_desk();
        met = fault_at(fault, at, command, &message);
        struct left left = look();
        int locks = count_locks();
        int is_done = left.in[NEW] == written;
        if (met != MET && !is_done)
            fail("the command ended well and its work is not done");
        check_order();
        check_words(left);
        if (met == ENDED && locks != 0)
            fail("the whole command left a lock");
        if (met == ENDED)
            break;
        all_old += left.in[OLD] == written;
        all_new += is_done;
        between += left.in[OLD] != written && !is_done;
        locked += locks != 0;
        complete(is_done);
    }
    if (all_old == 0 || all_new == 0)
        fail("the %s files were never left", all_old == 0 ? "old" : "new");
    printf("faults: %s, %s: %ld calls, %d left the old files, %d the new ones, %d were between; %d left a lock\n",
           case_name, fault_names[fault], at - 1, all_old, all_new, between, locked);
}

int main(int argc, char **argv)
{
    if (argc < 6) {
        fprintf(stderr, "usage: faults CASE REPLACED APPENDED AGAIN COMMAND [ARGUMENT ..]\n");
        return 2;
    }
    case_name = argv[1];
    again = strcmp(argv[4], "-") == 0 ? NEVER : atoi(argv[4]);
    command = argv + 5;
    if (chdir("desk") != 0)
        give_up("desk");
    add_files("../old");
    add_files("../new");
    set_access(argv[2], REPLACED);
    if (strcmp(argv[3], "-") != 0)
        set_access(argv[3], APPENDED);
    check_case();
    for (fault = KILLED_BEFORE; fault < FAULTS; fault++)
        meet_all();
    return 0;
}
