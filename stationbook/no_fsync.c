/* Preloaded by stationbook/test: fsync fails. A byte on descriptor 3 says that it is loaded. */
#include <errno.h>
#include <unistd.h>

__attribute__((constructor)) static void say_loaded(void) {
    if (write(3, "x", 1) != 1) {
        _exit(3);
    }
}

int fsync(int fd) {
    (void)fd;
    errno = EIO;
    return -1;
}
