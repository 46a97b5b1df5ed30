#include "place.h"

#include "say.h"

#include <errno.h>
#include <stdio.h>
#include <stdlib.h>
#include <string.h>
#include <sys/socket.h>
#include <sys/stat.h>
#include <sys/un.h>
#include <unistd.h>

/* Makes a folder for the socket in $TMPDIR or /tmp. */
static int make_folder(struct place *place) {
    const char *where = getenv("TMPDIR");
    size_t length = (size_t)snprintf(place->folder, sizeof place->folder, "%s/ahci-hba-XXXXXX", where ? where : "/tmp");
    if (length >= sizeof place->folder || !mkdtemp(place->folder)) {
        say("no folder can be made for a socket in %s: %m", where ? where : "/tmp");
        *place->folder = 0;
        return -1;
    }
    snprintf(place->path, sizeof place->path, "%s/socket", place->folder);
    return 0;
}

static int take_path(struct place *place, const char *wanted) {
    if ((size_t)snprintf(place->path, sizeof place->path, "%s", wanted) < sizeof place->path)
        return 0;
    say_of("socket", wanted, "a socket's path has %d bytes at most", PLACE_ROOM - 1);
    return -1;
}

/* Removes a socket at which nobody listens any more, and nothing else. */
static void remove_left(const struct sockaddr_un *address) {
    struct stat found;
    if (lstat(address->sun_path, &found) || !S_ISSOCK(found.st_mode))
        return;
    int file = socket(AF_UNIX, SOCK_STREAM | SOCK_CLOEXEC, 0);
    if (file < 0)
        return;
    if (connect(file, (const struct sockaddr *)address, sizeof *address) && errno == ECONNREFUSED)
        unlink(address->sun_path);
    close(file);
}

/* Listens at the path. Only this user can come, until somebody changes the mode of the socket. */
static int listen_at(const char *path) {
    struct sockaddr_un address = {.sun_family = AF_UNIX};
    snprintf(address.sun_path, sizeof address.sun_path, "%s", path);
    remove_left(&address);
    int file = socket(AF_UNIX, SOCK_STREAM | SOCK_CLOEXEC | SOCK_NONBLOCK, 0);
    mode_t before = umask(0177);
    bool is_bound = file >= 0 && bind(file, (const struct sockaddr *)&address, sizeof address) == 0;
    int why = errno;
    umask(before);
    if (is_bound && listen(file, 1) == 0)
        return file;
    errno = is_bound ? errno : why;
    say("no socket can be made at %s: %m", path);
    if (file >= 0)
        close(file);
    return -1;
}

int place_begin(struct place *place, const char *wanted) {
    *place = (struct place){.listening = -1};
    if (wanted ? take_path(place, wanted) : make_folder(place))
        return -1;
    place->listening = listen_at(place->path);
    if (place->listening >= 0)
        return 0;
    if (*place->folder)
        rmdir(place->folder);
    return -1;
}

int place_accept(const struct place *place) {
    return accept4(place->listening, NULL, NULL, SOCK_CLOEXEC);
}

void place_end(struct place *place) {
    if (place->listening < 0)
        return;
    close(place->listening);
    place->listening = -1;
    unlink(place->path);
    if (*place->folder)
        rmdir(place->folder);
}
