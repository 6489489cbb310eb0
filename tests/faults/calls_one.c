/* Makes the call that CALL names, once, as refuse_allocation.c and refuse_call.c name them. Its status is 0 if the call
   failed, and 1 if it went well. So it shows whether these libraries can stand before a call here, whatever the program
   that is tested does. */
#define _GNU_SOURCE
#include <fcntl.h>
#include <stdio.h>
#include <stdlib.h>
#include <string.h>
#include <sys/stat.h>
#include <unistd.h>

static int fails(const char *call)
{
    char byte = 0;
    char name[4096];
    struct statx status;
    void *volatile memory = malloc(1);
    int file = open("called", O_RDWR | O_CREAT, 0600);

    if (strcmp(call, "malloc") == 0)
        return memory == NULL;
    if (strcmp(call, "open") == 0)
        return file < 0;
    if (strcmp(call, "read") == 0)
        return read(file, &byte, 1) < 0;
    if (strcmp(call, "write") == 0)
        return write(STDOUT_FILENO, &byte, 1) < 0;
    if (strcmp(call, "file") == 0)
        return write(file, &byte, 1) < 0;
    if (strcmp(call, "fsync") == 0)
        return fsync(file) < 0;
    if (strcmp(call, "fchmod") == 0)
        return fchmod(file, 0600) < 0;
    if (strcmp(call, "fchown") == 0)
        return fchown(file, getuid(), getgid()) < 0;
    if (strcmp(call, "statx") == 0)
        return statx(AT_FDCWD, "called", 0, STATX_BASIC_STATS, &status) < 0;
    if (strcmp(call, "realpath") == 0)
        return realpath("called", name) == NULL;
    if (strcmp(call, "rename") == 0)
        return rename("called", "called") < 0;
    if (strcmp(call, "unlink") == 0)
        return unlink("called") < 0;
    if (strcmp(call, "close") == 0)
        return close(file) < 0;
    return 0;
}

int main(void)
{
    const char *call = getenv("CALL");
    return call && fails(call) ? 0 : 1;
}
