/* many FILE: reads and judges as 2D every file whose name is a line of FILE; prints how many are accepted. */
#include "dgn.h"
#include <fcntl.h>
#include <stdio.h>
#include <string.h>
#include <unistd.h>

static uint8_t bytes[DGN_FILE_BYTES + 1];

/* the whole file; its length, or -1 */
static ssize_t take(const char *name)
{
    int file = open(name, O_RDONLY);
    ssize_t used = 0, more = 1;
    if (file < 0)
        return -1;
    while (more > 0 && (size_t)used < sizeof bytes) {
        more = read(file, bytes + used, sizeof bytes - used);
        if (more > 0)
            used += more;
    }
    close(file);
    return more < 0 ? -1 : used;
}

int main(int count, char **words)
{
    char name[4096];
    size_t good = 0, out[DGN_JUDGE_NUMBERS];
    FILE *names = count == 2 ? fopen(words[1], "r") : NULL;
    if (!names)
        return 3;
    while (fgets(name, sizeof name, names)) {
        name[strcspn(name, "\n")] = 0;
        ssize_t length = take(name);
        if (length < 0)
            return 3;
        good += dgn_judge(bytes, length, 2, out, DGN_JUDGE_NUMBERS) == 0;
    }
    printf("%zu\n", good);
    return 0;
}
