/* peak FILE PROGRAM WORDS..: runs the program with these words, ends with its status, or with 128 and the number of
   the signal that ended it, and writes to FILE the most memory that it held, in bytes. By itself, since a process
   counts for its own what the one that started it held. */
#define _GNU_SOURCE
#include <stdio.h>
#include <sys/resource.h>
#include <sys/wait.h>
#include <unistd.h>

int main(int count, char **words) {
    int status;
    struct rusage used;
    pid_t child;
    FILE *file;
    if (count < 3 || (child = fork()) < 0)
        return 127;
    if (child == 0) {
        execv(words[2], words + 2);
        _exit(127);
    }
    if (wait4(child, &status, 0, &used) != child || !(file = fopen(words[1], "w")))
        return 127;
    fprintf(file, "%ld\n", 1024 * used.ru_maxrss);
    if (fclose(file))
        return 127;
    return WIFSIGNALED(status) ? 128 + WTERMSIG(status) : WEXITSTATUS(status);
}
