/* Files that a file system has to keep. `synced write FOLDER ROUND` makes files until something fails; three of four are written, synced and renamed, and their folder is
   synced, before a line `CHECK synced NAME` says so. `synced look FOLDER` prints `CHECK right NAME` or `CHECK wrong NAME` for each file that is there. */
#include <dirent.h>
#include <errno.h>
#include <fcntl.h>
#include <stdint.h>
#include <stdio.h>
#include <stdlib.h>
#include <string.h>
#include <sys/stat.h>
#include <unistd.h>

#define MOST_BYTES 60000
#define FOLDERS 4

/* The bytes of a file: how many, by its round and its number. */
static size_t fill(uint8_t *bytes, unsigned round, unsigned number) {
    uint64_t state = (uint64_t)round << 32 | (2 * number + 1);
    size_t count = 1000 + (state * UINT64_C(2685821657736338717) >> 40) % (MOST_BYTES - 1000);
    for (size_t at = 0; at < count; at++) {
        state = state * UINT64_C(6364136223846793005) + UINT64_C(1442695040888963407);
        bytes[at] = (uint8_t)(state >> 56);
    }
    return count;
}

static int write_file(const char *path, const uint8_t *bytes, size_t count, int syncs) {
    int file = open(path, O_WRONLY | O_CREAT | O_TRUNC, 0644);
    if (file < 0)
        return -1;
    for (size_t at = 0; at < count;) {
        ssize_t wrote = write(file, bytes + at, count - at < 5000 ? count - at : 5000);
        if (wrote <= 0)
            return -1;
        at += (size_t)wrote;
    }
    return (syncs && fsync(file)) || close(file) ? -1 : 0;
}

static int sync_folder(const char *path) {
    int file = open(path, O_RDONLY | O_DIRECTORY);
    return file < 0 || fsync(file) || close(file) ? -1 : 0;
}

/* Makes a file. It returns 1 if it has to stay, 0 if it was not synced, -1 if it could not be made. */
static int make(const char *folder, unsigned round, unsigned number, char name[64]) {
    static uint8_t bytes[MOST_BYTES];
    char within[300], begun[400], path[400];
    int syncs = number % 4 != 3;
    size_t count = fill(bytes, round, number);
    snprintf(within, sizeof within, "%s/%u", folder, number % FOLDERS);
    snprintf(name, 64, "%u/%u_%u", number % FOLDERS, round, number);
    snprintf(begun, sizeof begun, "%s/begun", within);
    snprintf(path, sizeof path, "%s/%s", folder, name);
    if ((mkdir(within, 0755) && errno != EEXIST) || write_file(begun, bytes, count, syncs) || rename(begun, path) || (syncs && (sync_folder(within) || sync_folder(folder))))
        return -1;
    return syncs;
}

static int write_all(const char *folder, unsigned round) {
    char name[64];
    int kept = 0;
    for (unsigned number = 0; kept >= 0; number++) {
        kept = make(folder, round, number, name);
        if (kept > 0)
            printf("CHECK synced %s\n", name);
        fflush(stdout);
    }
    return 1;
}

/* Whether a file has the bytes that it was made with. */
static int is_right(const char *path, const char *name) {
    static uint8_t bytes[MOST_BYTES], found[MOST_BYTES + 1];
    unsigned round, number;
    if (sscanf(name, "%u_%u", &round, &number) != 2)
        return 0;
    size_t count = fill(bytes, round, number);
    FILE *file = fopen(path, "r");
    size_t got = file ? fread(found, 1, sizeof found, file) : 0;
    if (file)
        fclose(file);
    return got == count && !memcmp(bytes, found, count);
}

static void look(const char *folder, unsigned within) {
    char path[300], of[600];
    snprintf(path, sizeof path, "%s/%u", folder, within);
    DIR *all = opendir(path);
    for (struct dirent *it = all ? readdir(all) : NULL; it; it = readdir(all)) {
        snprintf(of, sizeof of, "%s/%s", path, it->d_name);
        if (strchr(it->d_name, '_'))
            printf("CHECK %s %u/%s\n", is_right(of, it->d_name) ? "right" : "wrong", within, it->d_name);
    }
    if (all)
        closedir(all);
}

int main(int count, char **words) {
    if (count == 4 && !strcmp(words[1], "write"))
        return write_all(words[2], (unsigned)atoi(words[3]));
    if (count != 3 || strcmp(words[1], "look"))
        return 2;
    for (unsigned within = 0; within < FOLDERS; within++)
        look(words[2], within);
    return 0;
}
