/* Runs a command, and writes to its error output the microseconds of processor time and the most memory, in KB, that the
 * process took. The system counts the memory of a process from that of the one that starts it, which is small here. */
#include <stdio.h>
#include <sys/resource.h>
#include <sys/wait.h>
#include <unistd.h>

static long long microseconds(struct timeval time) { return (long long)time.tv_sec * 1000000 + (long long)time.tv_usec; }

int main(int argc, char **argv) {
  int status;
  struct rusage usage;
  pid_t child = argc > 1 ? fork() : -1;
  if (child == 0) {
    execv(argv[1], argv + 1);
    _exit(127);
  }
  if (child < 0 || waitpid(child, &status, 0) < 0 || getrusage(RUSAGE_CHILDREN, &usage) != 0) return 1;
  if (!WIFEXITED(status) || WEXITSTATUS(status) != 0) return 1;
  fprintf(stderr, "%lld %ld\n", microseconds(usage.ru_utime) + microseconds(usage.ru_stime), usage.ru_maxrss);
  return 0;
}
