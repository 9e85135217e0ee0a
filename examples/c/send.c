/* Sends files by YMODEM on standard input and output, as `sb -k` does. usage: send FILE..
   As a line's end: socat EXEC:'send firmware.bin' file:/dev/ttyUSB0,b115200,raw,echo=0 */
#include "line.h"

#include <fcntl.h>
#include <stdio.h>
#include <stdlib.h>
#include <string.h>
#include <sys/stat.h>

struct file {
    ym_file about;
    int handle;
};

/* Of what is no file there is no length to tell, and a pipe would be waited for. */
static int open_file(struct file *file, const char *path) {
    struct stat found;
    const char *slash = strrchr(path, '/'), *name = slash ? slash + 1 : path;
    if (stat(path, &found) != 0) return 0;
    errno = S_ISDIR(found.st_mode) ? EISDIR : EINVAL;
    if (!S_ISREG(found.st_mode)) return 0;
    file->handle = open(path, O_RDONLY);
    if (file->handle < 0 || fstat(file->handle, &found) != 0) return 0;
    file->about.name = (const uint8_t *)name;
    file->about.name_len = strlen(name);
    file->about.length = (uint64_t)found.st_size;
    file->about.stamp = 2;
    /* 0 is a time that is not known, as one before 1970 */
    file->about.time = found.st_mtime > 0 ? (uint64_t)found.st_mtime : 0;
    file->about.mode = (uint32_t)found.st_mode;
    return 1;
}

static int about(void *user, size_t file, ym_file *about) {
    struct file *files = user;
    *about = files[file].about;
    return 1;
}

static int fill(void *user, size_t file, uint64_t start, uint8_t *bytes, size_t len) {
    struct file *files = user;
    return pread(files[file].handle, bytes, len, (off_t)start) == (ssize_t)len;
}

int main(int words, char **word) {
    if (words < 2) {
        fprintf(stderr, "usage: send FILE..\n");
        return 2;
    }
    size_t count = (size_t)(words - 1);
    struct file *files = calloc(count, sizeof *files);
    uint64_t *blocks = calloc(count, sizeof *blocks);
    if (!files || !blocks) return 2;
    for (size_t i = 0; i < count; i++) {
        if (!open_file(&files[i], word[i + 1])) {
            perror(word[i + 1]);
            return 2;
        }
    }
    ym_source source = { files, count, blocks, about, fill };
    line_begins();
    ym_error error = ym_send(&line, &source);
    fprintf(stderr, "send: %s\n", line_text(error));
    if (error == YM_DONE) return 0;
    line_ends(2);
    return 1;
}
