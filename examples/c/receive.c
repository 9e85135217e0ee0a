/* Receives files by YMODEM on standard input and output into a folder, as `rb` does. usage: receive FOLDER
   As a line's end: socat EXEC:'receive incoming' file:/dev/ttyUSB0,b115200,raw,echo=0 */
#include "line.h"

#include <fcntl.h>
#include <stdio.h>
#include <string.h>

/* The file under way, and how many are stored. */
struct part {
    char name[256 + 5];
    int file;
    unsigned stored;
};

/* Tells why what was tried with a name failed. */
static int failed(const char *name) {
    fprintf(stderr, "receive: %s: %s\n", name, strerror(errno));
    return 0;
}

/* A name has no '/', and is neither "." nor "..": the library has seen to that. One of more than
   250 bytes has no room for ".part" in most file systems. */
static int begin(void *user, const ym_file *file) {
    struct part *part = user;
    memcpy(part->name, file->name, file->name_len);
    memcpy(part->name + file->name_len, ".part", 6);
    part->file = open(part->name, O_WRONLY | O_CREAT | O_EXCL, 0644);
    return part->file >= 0 || failed(part->name);
}

static int add(void *user, const uint8_t *bytes, size_t len) {
    struct part *part = user;
    return put(part->file, bytes, len) || failed(part->name);
}

/* Gives a part its name, which fails where that is taken. Where the file system has no hard links,
   as FAT, the name is made first, and the part renamed over it. */
static int gets_name(const char *part, const char *name) {
    if (link(part, name) == 0) return 1;
    if (errno != EPERM && errno != ENOSYS && errno != EOPNOTSUPP) return 0;
    int made = open(name, O_WRONLY | O_CREAT | O_EXCL, 0644);
    if (made < 0) return 0;
    close(made);
    if (rename(part, name) == 0) return 1;
    unlink(name);
    return 0;
}

/* A file that is there already stays as it is. */
static int commit(void *user) {
    struct part *part = user;
    char name[256];
    size_t len = strlen(part->name) - 5;
    int is_kept = close(part->file) == 0;
    part->file = -1;
    memcpy(name, part->name, len);
    name[len] = 0;
    is_kept = (is_kept && gets_name(part->name, name)) || failed(name);
    if (unlink(part->name) != 0 && errno != ENOENT) return failed(part->name);
    part->stored += (unsigned)is_kept;
    return is_kept;
}

int main(int count, char **words) {
    struct part part = { .file = -1 };
    ym_sink sink = { &part, begin, add, commit };
    if (count != 2 || chdir(words[1]) != 0) {
        fprintf(stderr, "usage: receive FOLDER\n");
        return 2;
    }
    line_begins();
    ym_error error = ym_receive(&line, &sink);
    if (part.file >= 0) {
        close(part.file);
        unlink(part.name);
    }
    fprintf(stderr, "receive: %s, files %u\n", line_text(error), part.stored);
    if (error == YM_DONE) return 0;
    line_ends(0);
    return 1;
}
