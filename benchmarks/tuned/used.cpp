// Runs a program, and writes what it used into a file: its status, the processor time in seconds, and the greatest
// resident size in kilobytes. That size counts what starts a program, too, so this program is small.
//
// usage: used FILE PROGRAM WORD ..

#include <cstdio>
#include <sys/resource.h>
#include <sys/wait.h>
#include <unistd.h>

static double seconds(const timeval& time) {
    return static_cast<double>(time.tv_sec) + 1e-6 * static_cast<double>(time.tv_usec);
}

int main(int count, char** words) {
    if (count < 3) return 2;
    const pid_t program = fork();
    if (program == 0) {
        execvp(words[2], words + 2);
        _exit(127);
    }
    int state;
    rusage used;
    if (program < 0 || wait4(program, &state, 0, &used) != program) return 3;
    FILE* const file = fopen(words[1], "w");
    if (!file) return 3;
    const int status = WIFEXITED(state) ? WEXITSTATUS(state) : 128 + WTERMSIG(state);
    fprintf(file, "%d %.6f %ld\n", status, seconds(used.ru_utime) + seconds(used.ru_stime), used.ru_maxrss);
    return fclose(file) ? 3 : 0;
}
