// The lister on streams of sections, against a plain C program that prints the same: megabytes of input a second, and the lister's
// peak memory on 10 and on 100 MB. Takes the lister, the plain program, the folder of the lists of annex C, and of each stream the
// name without -10.bin and -100.bin.
#define _GNU_SOURCE
#include <fcntl.h>
#include <stdio.h>
#include <stdlib.h>
#include <string.h>
#include <sys/resource.h>
#include <sys/stat.h>
#include <sys/wait.h>
#include <unistd.h>

#include "clock.h"

enum { ROUNDS = 5 };

static void fail(const char *what) {
    printf("FAILED lister: %s\n", what);
    exit(1);
}

// The time that a program takes on a file; *peak gets its memory in KiB.
static double listed(char *program, char *folder, const char *file, long *peak) {
    double began = seconds();
    pid_t child = fork();
    if (child < 0)
        fail("no process");
    if (child == 0) {
        int in = open(file, O_RDONLY), out = open("/dev/null", O_WRONLY);
        if (in < 0 || out < 0 || dup2(in, 0) < 0 || dup2(out, 1) < 0)
            _exit(127);
        execl(program, program, folder, (char *)NULL);
        _exit(127);
    }
    int status;
    struct rusage used;
    if (wait4(child, &status, 0, &used) < 0 || status != 0)
        fail("a program did not end well");
    *peak = used.ru_maxrss;
    return seconds() - began;
}

// The best of the rounds; the two programs take turns, so that both see the same machine.
static void measure(char *lister, char *plain, char *folder, const char *name) {
    char file[4096];
    struct stat about;
    long few, many, other;
    double ours = 1e18, theirs = 1e18;
    snprintf(file, sizeof file, "%s-10.bin", name);
    listed(lister, NULL, file, &few);
    snprintf(file, sizeof file, "%s-100.bin", name);
    if (stat(file, &about) < 0)
        fail("no stream");
    for (int k = 0; k < ROUNDS; k++) {
        double t = listed(lister, NULL, file, &many), u = listed(plain, folder, file, &other);
        ours = t < ours ? t : ours;
        theirs = u < theirs ? u : theirs;
    }
    double size = about.st_size * 1e-6;
    const char *last = strrchr(name, '/');
    printf("%-12s %12.1f %12.1f %8.2f %10ld %10ld\n", last ? last + 1 : name, size / ours, size / theirs, theirs / ours, few, many);
}

int main(int argc, char **argv) {
    if (argc < 5)
        fail("usage: lister LISTER PLAIN FOLDER NAME..");
    printf("%-12s %12s %12s %8s %10s %10s\n", "stream", "lister MB/s", "plain C MB/s", "ratio", "KiB, 10 MB", "100 MB");
    for (int k = 4; k < argc; k++)
        measure(argv[1], argv[2], argv[3], argv[k]);
    return 0;
}
