#define _GNU_SOURCE
#include "shown.h"
#include <stdio.h>
#include <stdlib.h>
#include <string.h>
#include <sys/stat.h>
#include <sys/sysmacros.h>

int shown(int fd, const char *name, char *word, size_t room) {
    struct stat st;
    char path[128];
    size_t length;
    FILE *file;
    if (fstat(fd, &st) != 0 || !S_ISCHR(st.st_mode)) return 0;
    snprintf(path, sizeof path, "/sys/dev/char/%u:%u/%s", major(st.st_rdev), minor(st.st_rdev), name);
    file = fopen(path, "r");
    if (file == NULL) return 0;
    length = fread(word, 1, room - 1, file);
    fclose(file);
    word[length] = 0;
    word[strcspn(word, "\n")] = 0;
    return length != 0;
}

long shown_number(int fd, const char *name) {
    char word[32];
    return shown(fd, name, word, sizeof word) ? strtol(word, NULL, 10) : -1;
}
