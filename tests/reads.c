// Reads that fail, for a program that is started with this library preloaded: READS has a letter for each read of standard input, i for one that a signal
// interrupts, e for an error of the device, and any other for a read of at most 5 bytes. Reads past the letters are as ever. Where SIGNALS is set, a signal
// comes each millisecond, and interrupts every read that waits, also one that a library makes.
#define _GNU_SOURCE
#include <errno.h>
#include <signal.h>
#include <stdlib.h>
#include <sys/syscall.h>
#include <sys/time.h>
#include <unistd.h>

static void on_signal(int number) { (void)number; }

__attribute__((constructor)) static void start_signals(void) {
    if (getenv("SIGNALS") == NULL) return;
    struct sigaction action = {.sa_handler = on_signal};  // without SA_RESTART: the call isn't made again by itself
    struct itimerval often = {.it_interval = {.tv_usec = 1000}, .it_value = {.tv_usec = 1000}};
    if (sigaction(SIGALRM, &action, NULL) != 0 || setitimer(ITIMER_REAL, &often, NULL) != 0) abort();
}

ssize_t read(int file, void *into, size_t size) {
    static size_t made = 0;
    const char *letters = getenv("READS");
    if (file == 0 && letters != NULL && letters[made] != '\0') {
        char letter = letters[made++];
        if (letter == 'i' || letter == 'e') {
            errno = letter == 'i' ? EINTR : EIO;
            return -1;
        }
        if (size > 5) size = 5;
    }
    return syscall(SYS_read, file, into, size);
}
