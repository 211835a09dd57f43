/* listing_main NAME FOLDER BYTES RATTLE C: times two listing programs in turn in a board's folder, and prints a row of the table:
 * seconds of a processor, the least of several runs; their ratio; MB of the listing in a second; the most memory that was used.
 * BYTES is the length of the listing, which goes to /dev/null. A process of its own, with little memory: what a child has before
 * it becomes the program counts as the child's. */
#include <fcntl.h>
#include <stdio.h>
#include <stdlib.h>
#include <sys/resource.h>
#include <sys/wait.h>
#include <unistd.h>

enum { RUNS = 5 };

struct used {
    double seconds;
    long memory; /* KB */
};

static void become(const char *folder, const char *program)
{
    int nowhere = open("/dev/null", O_WRONLY);

    if (nowhere < 0 || dup2(nowhere, STDOUT_FILENO) < 0 || chdir(folder) != 0)
        _exit(127);
    execl(program, program, (char *)NULL);
    _exit(127);
}

static double seconds(struct timeval t)
{
    return t.tv_sec + 1e-6 * t.tv_usec;
}

/* One run. Its time is that of a processor, its own and the kernel's for it: other programs may run beside it. */
static struct used run(const char *folder, const char *program)
{
    struct rusage usage;
    int status;
    pid_t child = fork();

    if (child == 0)
        become(folder, program);
    if (child < 0 || wait4(child, &status, 0, &usage) != child || status != 0) {
        fprintf(stderr, "bench: FAILED: %s in %s\n", program, folder);
        exit(1);
    }
    return (struct used){seconds(usage.ru_utime) + seconds(usage.ru_stime), usage.ru_maxrss};
}

static void keep(struct used *least, struct used now)
{
    if (now.seconds < least->seconds)
        least->seconds = now.seconds;
    if (now.memory > least->memory)
        least->memory = now.memory;
}

int main(int count, char **words)
{
    struct used rattle = {1e9, 0}, c = {1e9, 0};

    if (count != 6)
        return 2;
    double megabytes = atof(words[3]) / 1e6;
    for (int k = 0; k < RUNS; k++) {
        keep(&rattle, run(words[2], words[4]));
        keep(&c, run(words[2], words[5]));
    }
    printf("%-22s %8.3f %8.3f %8.2f ", words[1], rattle.seconds, c.seconds, rattle.seconds / c.seconds);
    printf("%9.1f %8.0f %8.0f ", megabytes, megabytes / rattle.seconds, megabytes / c.seconds);
    printf("%8ld %8ld\n", rattle.memory, c.memory);
    return 0;
}
