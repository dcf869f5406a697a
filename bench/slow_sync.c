/* Before a program: each sync of a file takes the milliseconds of SYNC_MILLIS and does nothing else, as on a disk that is busy. */
#include <stdlib.h>
#include <time.h>

static int slow(void) {
    const char *text = getenv("SYNC_MILLIS");
    long millis = text ? atol(text) : 0;
    struct timespec pause = {.tv_sec = millis / 1000, .tv_nsec = millis % 1000 * 1000000};
    nanosleep(&pause, NULL);
    return 0;
}

int fsync(int file) {
    (void)file;
    return slow();
}

int fdatasync(int file) {
    (void)file;
    return slow();
}
