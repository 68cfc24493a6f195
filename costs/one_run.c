/* one_run OUTPUT PROGRAM WORD...
 *
 * Runs a program with its standard output in a file, and prints its nanoseconds of wall time, its microseconds of processor time,
 * the most KiB of memory that it held, and its status. costs/beside builds it. Linux counts into a program's memory that of the
 * process which starts it, so this one is small. */
#define _GNU_SOURCE
#include <fcntl.h>
#include <signal.h>
#include <stdio.h>
#include <sys/prctl.h>
#include <sys/resource.h>
#include <sys/wait.h>
#include <time.h>
#include <unistd.h>

static long long nanoseconds(void) {
	struct timespec now;
	clock_gettime(CLOCK_MONOTONIC, &now);
	return now.tv_sec * 1000000000LL + now.tv_nsec;
}

static long long microseconds(struct timeval time) { return time.tv_sec * 1000000LL + time.tv_usec; }

int main(int count, char **words) {
	if (count < 3)
		return 2;
	long long begin = nanoseconds();
	pid_t child = fork();
	if (child == 0) {
		prctl(PR_SET_PDEATHSIG, SIGKILL); /* it doesn't outlive this process */
		int output = open(words[1], O_WRONLY | O_CREAT | O_TRUNC, 0600);
		if (output < 0 || dup2(output, 1) < 0)
			_exit(126);
		execv(words[2], words + 2);
		_exit(127);
	}
	int status;
	struct rusage used;
	if (child < 0 || wait4(child, &status, 0, &used) < 0)
		return 2;
	long long wall = nanoseconds() - begin;
	printf("%lld %lld %ld %d\n", wall, microseconds(used.ru_utime) + microseconds(used.ru_stime), used.ru_maxrss,
	       WIFEXITED(status) ? WEXITSTATUS(status) : 128 + WTERMSIG(status));
	return 0;
}
