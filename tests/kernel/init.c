/*
 * init.c: the first process of a virtual machine. Each word of Linux's command line that begins with a slash is a program, with its
 * own words after a colon, parted by commas: `/judged:from=1,to=20`. They run one after the other. What they write goes to the
 * console, and then how each ended: `init: /judged:from=1,to=20 ended, 0`. Then the machine powers off. For tests/kernel/run alone.
 */
#define _GNU_SOURCE

#include <stdio.h>
#include <string.h>
#include <sys/wait.h>
#include <unistd.h>

#include "machine.h"

enum { MOST_WORDS = 20 };

static void run(char *program) {
    char *words[MOST_WORDS + 1] = {strtok(program, ":,")};
    int count = 1;
    while (count < MOST_WORDS && (words[count] = strtok(NULL, ",")) != NULL)
        count++;
    execv(words[0], words);
    perror(words[0]);
    _exit(127);
}

int main(int words, char **word) {
    machine_begin();
    for (int i = 1; i < words; i++) {
        int status = -1;
        if (word[i][0] != '/')
            continue;
        pid_t child = fork();
        if (child == 0)
            run(word[i]);
        waitpid(child, &status, 0);
        printf("init: %s ended, %d\n", word[i], status);
    }
    machine_end();
    return 1;
}
