// Shared by refuse.c and pieces.c, which are loaded before the C library. Calls are counted from 1. CHOSEN is the
// number of the call that is changed, or `all`. At the end the number of calls goes to the file COUNTED.
#include <fcntl.h>
#include <stdio.h>
#include <stdlib.h>
#include <string.h>
#include <sys/syscall.h>
#include <unistd.h>

static unsigned long counted, chosen;
static int all;

__attribute__((constructor)) static void begin(void) {
    const char *word = getenv("CHOSEN");
    all = word && strcmp(word, "all") == 0;
    chosen = word && !all ? strtoul(word, NULL, 10) : 0;
    counted = 0;
}

__attribute__((destructor)) static void end(void) {
    const char *path = getenv("COUNTED");
    if (!path) return;
    char line[32];
    int size = snprintf(line, sizeof line, "%lu\n", counted);
    int file = open(path, O_WRONLY | O_CREAT | O_TRUNC, 0600);
    if (file < 0) return;
    if (syscall(SYS_write, file, line, (size_t)size) != size) unlink(path);
    close(file);
}

static int is_chosen(void) { return ++counted == chosen || all; }
