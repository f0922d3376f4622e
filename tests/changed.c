/* Loaded before the C library: the first time that a .cel file is read it is changed right after, as CHANGE says. */
#define _GNU_SOURCE
#include <dlfcn.h>
#include <fcntl.h>
#include <stdio.h>
#include <stdlib.h>
#include <string.h>
#include <unistd.h>

/* changes the file behind a descriptor */
static void change(int file)
{
    const char *how = getenv("CHANGE");
    char link[64], name[4096];
    snprintf(link, sizeof link, "/proc/self/fd/%d", file);
    ssize_t length = readlink(link, name, sizeof name - 1);
    if (!how || length < 4)
        return;
    name[length] = 0;
    if (strcmp(name + length - 4, ".cel") != 0)
        return;
    int other = open(name, O_WRONLY);
    if (other < 0)
        abort();
    int failed = 0;
    if (strcmp(how, "grow") == 0)
        failed = pwrite(other, "more", 4, lseek(other, 0, SEEK_END)) != 4;
    else if (strcmp(how, "shrink") == 0)
        failed = ftruncate(other, 100);
    else
        failed = pwrite(other, "else", 4, 200) != 4;
    if (failed)
        abort();
    close(other);
}

ssize_t read(int file, void *to, size_t most)
{
    static int done;
    ssize_t (*next)(int, void *, size_t) = (ssize_t (*)(int, void *, size_t))dlsym(RTLD_NEXT, "read");
    ssize_t count = next(file, to, most);
    if (!done && count > 0 && file > 2) {
        done = 1;
        change(file);
        done = 0;
    }
    return count;
}
