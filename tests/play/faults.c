/*
 * A read and a write that go wrong, to be loaded before the C library's. PLAY_FAULT says how; it is the program target/bin/play alone
 * that meets them, on standard input and output.
 */
#define _GNU_SOURCE
#include <errno.h>
#include <stdlib.h>
#include <string.h>
#include <sys/syscall.h>
#include <unistd.h>

/* Bytes that pass before a file is full, takes nothing, or can't be read further. */
#define GOOD_BYTES 100

static size_t passed[2];
static int interrupted[2];

/* Whether the fault is this one, and this program the player. */
static int fault(const char *name)
{
	char exe[4096];
	const char *given = getenv("PLAY_FAULT");
	ssize_t n = readlink("/proc/self/exe", exe, sizeof exe);

	return given != NULL && strcmp(given, name) == 0 && n > 9 && memcmp(exe + n - 9, "/bin/play", 9) == 0;
}

/* How many of n bytes pass, or -1 with errno: fd is 0 or 1, and `error` what a broken file of its kind gives. */
static ssize_t passing(int fd, size_t n, const char *broken, int error)
{
	size_t left = GOOD_BYTES > passed[fd] ? GOOD_BYTES - passed[fd] : 0;

	if (fault("interrupted") || fault("interrupted and short")) {
		interrupted[fd] = !interrupted[fd];
		if (interrupted[fd]) {
			errno = EINTR;
			return -1;
		}
	}
	if ((fault("short") || fault("interrupted and short")) && n > 3)
		return 3;
	if (fault("nothing taken") && fd == 1)
		return (ssize_t)(n < left ? n : left);
	if (fault(broken)) {
		if (left == 0) {
			errno = error;
			return -1;
		}
		return (ssize_t)(n < left ? n : left);
	}
	return (ssize_t)n;
}

ssize_t read(int fd, void *to, size_t n)
{
	ssize_t most = fd == 0 ? passing(0, n, "unreadable", EIO) : (ssize_t)n;
	ssize_t got = most < 0 ? most : syscall(SYS_read, fd, to, (size_t)most);

	if (fd == 0 && got > 0)
		passed[0] += (size_t)got;
	return got;
}

ssize_t write(int fd, const void *from, size_t n)
{
	ssize_t most = fd == 1 ? passing(1, n, "full", ENOSPC) : (ssize_t)n;
	ssize_t put = most <= 0 ? most : syscall(SYS_write, fd, from, (size_t)most);

	if (fd == 1 && put > 0)
		passed[1] += (size_t)put;
	return put;
}
