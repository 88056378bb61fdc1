/* Stands in for the lab, PROGRAM, in trials without memory: it asks for none itself. FAULT says what is wrong then. */
#include <fcntl.h>
#include <stdlib.h>
#include <string.h>
#include <sys/wait.h>
#include <unistd.h>

enum { ENDS, LOSES, PIECES };

int main(int count, char **words) {
    static char told[65536], text[65536];
    int errors[2], status, out = open("stand_in.out", O_RDWR | O_CREAT | O_TRUNC, 0600);
    ssize_t length = 0, more = 0, at = 0;
    (void)count;
    if (out < 0 || pipe(errors)) return 99;
    if (fork() == 0) {
        /* To a file, as a lab that has memory writes it at once. */
        dup2(out, 1);
        dup2(errors[1], 2);
        close(errors[0]);
        execv(PROGRAM, words);
        _exit(98);
    }
    close(errors[1]);
    for (at = 0; (more = read(errors[0], told + at, sizeof told - 1 - at)) > 0;) at += more;
    if (wait(&status) < 0 || lseek(out, 0, SEEK_SET)) return 97;
    while ((more = read(out, text + length, sizeof text - 1 - length)) > 0) length += more;
    status = WEXITSTATUS(status);
    /* The shim's last line tells how often the program wrote: more than once where it had no buffer. */
    char *last = strstr(told, "writes ");
    int pieces = status == 0 && last && atol(last + 7) > 1;
    at = 0;
    if (FAULT == ENDS && pieces) return write(1, "memory\n", 7) == 7 ? 11 : 96;
    if (FAULT == LOSES && pieces) at = strchr(text, '\n') + 1 - text;
    if (FAULT == PIECES || pieces) {
        while (at < length) at += write(1, text + at, strchr(text + at, '\n') + 1 - (text + at));
    } else if (write(1, text + at, length - at) != length - at) return 95;
    return status;
}
