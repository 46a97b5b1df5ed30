#include "image.h"

#include "say.h"

#include <errno.h>
#include <fcntl.h>
#include <inttypes.h>
#include <limits.h>
#include <stdio.h>
#include <stdlib.h>
#include <string.h>
#include <sys/stat.h>
#include <unistd.h>

int image_find(struct image *image, const char *file) {
    struct stat found;
    image->path = realpath(file, NULL);
    if (!image->path || stat(image->path, &found)) {
        say_of("image", file, "%m");
        return -1;
    }
    if (!S_ISREG(found.st_mode)) {
        say_of("image", file, "this is no regular file");
        return -1;
    }
    image->bytes = (uint64_t)found.st_size;
    return 0;
}

void image_end(struct image *image) {
    free(image->path);
    image->path = NULL;
}

int image_settle(const struct image *image, uint32_t *sectors, uint32_t most) {
    uint64_t there = image->path ? (image->bytes + SECTOR_BYTES - 1) / SECTOR_BYTES : MOST_SECTORS, wanted = *sectors ? *sectors : there;
    if (wanted == 0 || wanted > most || (image->path && there > wanted)) {
        say_of("image", image->path, "the image has %" PRIu64 " sectors, and the disk 1 to %" PRIu32, there, *sectors ? *sectors : most);
        return -1;
    }
    *sectors = (uint32_t)wanted;
    return 0;
}

/* Earlier servers wrote an image to FILE.new, which then took its place. */
int image_look_for_new(const struct image *image) {
    char path[PATH_MAX];
    struct stat found;
    if (snprintf(path, PATH_MAX, "%s.new", image->path) >= PATH_MAX) {
        say_of("image", image->path, "%s", strerror(ENAMETOOLONG));
        return -1;
    }
    if (lstat(path, &found))
        return 0;
    say_of("image", image->path, "%s is left by a server that did not end well; it has the sectors that were to be written back, or some of them: "
           "keep it elsewhere or remove it", path);
    return -1;
}

int image_sync_folder(const char *path) {
    char folder[PATH_MAX];
    const char *slash = strrchr(path, '/');
    snprintf(folder, sizeof folder, "%.*s", slash && slash != path ? (int)(slash - path) : 1, slash ? path : ".");
    int file = open(folder, O_RDONLY | O_DIRECTORY | O_CLOEXEC);
    if (file < 0)
        return 0;
    int why = fsync(file) && errno != EINVAL ? errno : 0;
    if (why)
        say("%s: %s", folder, strerror(why));
    close(file);
    return why;
}
