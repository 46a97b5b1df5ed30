#include "log.h"

#include "say.h"
#include "worker.h"

#include <errno.h>
#include <fcntl.h>
#include <pthread.h>
#include <stdarg.h>
#include <stdio.h>
#include <stdlib.h>
#include <string.h>
#include <time.h>
#include <unistd.h>

#define MOST_LINE 256
#define MOST_TEXT (MOST_LINE + 64)      /* with its time, and the line before it that counts repeats */
#define LARGE ((size_t)1 << 20)         /* bytes of lines after which they are written */
#define MOST_WAITING ((size_t)64 << 20) /* bytes of lines that may wait; more of them wait for the file */
#define HOLD 1000000                    /* microseconds for which lines wait at most while others come */

/* Lines that are not written yet. */
struct lines {
    char *bytes;
    size_t count, room;
};

static int file = -1;
static struct timespec begun;
static char last[MOST_LINE];  /* the line that was written last */
static unsigned long repeats; /* how many times it has come again since */
static long flushed;          /* when the lines were given to the thread last */

/* A thread writes, so that nothing else waits for the file. All that follows belongs to the lock. */
static pthread_t thread;
static pthread_mutex_t lock = PTHREAD_MUTEX_INITIALIZER;
static pthread_cond_t changed = PTHREAD_COND_INITIALIZER;
static struct lines lines;
static bool is_asked, is_ended, has_failed;

/* ---- the thread ---- */

static bool write_all(const char *bytes, size_t count) {
    while (count) {
        ssize_t wrote = write(file, bytes, count);
        if (wrote < 0 && errno == EINTR)
            continue;
        if (wrote < 0)
            return false;
        bytes += wrote;
        count -= (size_t)wrote;
    }
    return true;
}

static void *write_lines(void *unused) {
    struct lines taken = {.bytes = NULL};
    pthread_mutex_lock(&lock);
    while (!is_ended || lines.count) {
        if (!is_asked && !is_ended) {
            pthread_cond_wait(&changed, &lock);
            continue;
        }
        struct lines other = taken;
        taken = lines;
        lines = (struct lines){.bytes = other.bytes, .room = other.room};
        is_asked = false;
        pthread_mutex_unlock(&lock);
        bool failed = !write_all(taken.bytes, taken.count);
        pthread_mutex_lock(&lock);
        has_failed |= failed;
        pthread_cond_broadcast(&changed);
    }
    pthread_mutex_unlock(&lock);
    free(taken.bytes);
    return unused;
}

int log_begin(const char *path) {
    clock_gettime(CLOCK_MONOTONIC, &begun);
    if (!path)
        return 0;
    file = open(path, O_WRONLY | O_CREAT | O_TRUNC | O_CLOEXEC, 0666);
    errno = file < 0 ? errno : thread_start(&thread, write_lines, NULL);
    if (file >= 0 && errno == 0)
        return 0;
    say_of("log", path, "%m");
    return -1;
}

bool log_is_open(void) {
    return file >= 0;
}

/* ---- lines ---- */

/* Microseconds since the start. */
static long stamp(void) {
    struct timespec now;
    clock_gettime(CLOCK_MONOTONIC, &now);
    return (now.tv_sec - begun.tv_sec) * 1000000L + (now.tv_nsec - begun.tv_nsec) / 1000;
}

static void ask(void) {
    is_asked = true;
    flushed = stamp();
    pthread_cond_broadcast(&changed);
}

/* Appends a text to the lines. Without memory it is lost, and the log counts as not written. */
static void append(const char *text, size_t count) {
    while (lines.count > MOST_WAITING && !has_failed) {
        ask();
        pthread_cond_wait(&changed, &lock);
    }
    if (lines.room - lines.count < count) {
        size_t room = lines.room ? 2 * lines.room : LARGE;
        char *bytes = realloc(lines.bytes, room);
        has_failed |= !bytes;
        if (!bytes)
            return;
        lines.bytes = bytes;
        lines.room = room;
    }
    memcpy(lines.bytes + lines.count, text, count);
    lines.count += count;
}

static void append_repeats(void) {
    char text[MOST_TEXT];
    if (repeats)
        append(text, (size_t)snprintf(text, sizeof text, "             the same, %lu times more\n", repeats));
    repeats = 0;
}

static void put(const char *line) {
    char text[MOST_TEXT];
    if (!strcmp(line, last)) {
        repeats++;
        return;
    }
    long micros = stamp();
    append_repeats();
    append(text, (size_t)snprintf(text, sizeof text, "%5ld.%06ld %s\n", micros / 1000000, micros % 1000000, line));
    strcpy(last, line);
    if (lines.count > LARGE || micros - flushed > HOLD)
        ask();
}

void log_line(const char *format, ...) {
    char line[MOST_LINE];
    va_list rest;
    if (file < 0)
        return;
    va_start(rest, format);
    vsnprintf(line, sizeof line, format, rest);
    va_end(rest);
    pthread_mutex_lock(&lock);
    put(line);
    pthread_mutex_unlock(&lock);
}

void log_complaint(const char *line) {
    fprintf(stderr, "ahci-hba: %s\n", line);
    log_line("%s", line);
}

void log_flush(void) {
    if (file < 0)
        return;
    pthread_mutex_lock(&lock);
    ask();
    pthread_mutex_unlock(&lock);
}

int log_end(void) {
    if (file < 0)
        return 0;
    pthread_mutex_lock(&lock);
    append_repeats();
    is_ended = true;
    pthread_cond_broadcast(&changed);
    pthread_mutex_unlock(&lock);
    pthread_join(thread, NULL);
    free(lines.bytes);
    bool failed = close(file) || has_failed;
    file = -1;
    return failed ? -1 : 0;
}
