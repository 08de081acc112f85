/* For an emulated machine, where starting a program costs more than its work: loaded into a program with LD_PRELOAD, it stops it before its first
 * instruction, and for each byte that it reads from descriptor 4 it lets a copy of the process go on and writes how that ended to descriptor 5. */
#include <sys/wait.h>
#include <unistd.h>

enum { ASKED = 4, ENDED = 5 };

__attribute__((constructor)) static void serve(void) {
    char asked;
    int status;
    while (read(ASKED, &asked, 1) == 1) {
        pid_t copy = fork();
        if (copy == 0) {
            close(ASKED);
            close(ENDED);
            return;
        }
        if (copy < 0 || waitpid(copy, &status, 0) != copy || write(ENDED, &status, sizeof status) != sizeof status) break;
    }
    _exit(0);
}
