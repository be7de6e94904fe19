/* Runs a program with a file as its standard input, and as its standard output the file that OUT names in the environment, or
 * /dev/null. Prints wall time and processor time in microseconds, and peak memory in kilobytes. It is small, since the peak of a process is at least that of the process that
 * it was forked from. Usage: programs INPUT PROGRAM [WORD].. */
#define _GNU_SOURCE
#include <fcntl.h>
#include <stdio.h>
#include <stdlib.h>
#include <sys/resource.h>
#include <sys/wait.h>
#include <time.h>
#include <unistd.h>

static double micros(struct timeval t) { return (double)t.tv_sec * 1e6 + (double)t.tv_usec; }

int main(int argc, char **argv) {
  if (argc < 3) return 2;
  struct timespec from, to;
  clock_gettime(CLOCK_MONOTONIC, &from);
  pid_t child = fork();
  if (child < 0) return 2;
  if (child == 0) {
    const char *name = getenv("OUT");
    int in = open(argv[1], O_RDONLY);
    int out = name ? open(name, O_WRONLY | O_CREAT | O_TRUNC, 0644) : open("/dev/null", O_WRONLY);
    if (in < 0 || out < 0 || dup2(in, 0) < 0 || dup2(out, 1) < 0) _exit(127);
    execv(argv[2], argv + 2);
    _exit(127);
  }
  int status;
  struct rusage usage;
  if (wait4(child, &status, 0, &usage) != child) return 2;
  clock_gettime(CLOCK_MONOTONIC, &to);
  if (!WIFEXITED(status) || WEXITSTATUS(status) > 1) return 3;
  double wall = (double)(to.tv_sec - from.tv_sec) * 1e6 + (double)(to.tv_nsec - from.tv_nsec) / 1e3;
  printf("%.0f %.0f %ld\n", wall, micros(usage.ru_utime) + micros(usage.ru_stime), usage.ru_maxrss);
  return 0;
}
