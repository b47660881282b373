/* Refuses or records calls of a program that it is loaded into by LD_PRELOAD, for tests/failing.py and tests/torn.py.

   VOLUME    the path of the volume; only calls on it are calls of the device
   MEMORY    the number of the allocation that is refused, from 1 on, where one is to be
   CALL      the number of the device call that fails with EIO, from 1 on; all later ones fail too
   OUTPUT    the number of the write to standard output that fails with ENOSPC, from 1 on; all later ones fail too
   LOSE      where it is set, what was written and not synced is undone when the program ends, as a device may do whose power fails
   RECORD    a file that takes each write of the volume, as its place and its size in eight bytes each and then its bytes, and each sync, as a write of
             no bytes
   COUNTS    a file that takes the numbers of allocations, of device calls and of writes to standard output at the end */
#define _GNU_SOURCE
#include <dlfcn.h>
#include <errno.h>
#include <fcntl.h>
#include <stdarg.h>
#include <stdio.h>
#include <stdlib.h>
#include <string.h>
#include <sys/stat.h>
#include <unistd.h>

#define REAL(name) ((__typeof__(&name))dlsym(RTLD_NEXT, #name))

extern void *__libc_malloc(size_t);
extern void *__libc_realloc(void *, size_t);

static unsigned long allocations, calls, outputs, refused_allocation, first_failed_call, first_failed_output;
static const char *volume, *counts;
static int volume_fd = -1, loses, record_fd = -1;

/* What stood where something was written since the last sync, the last one first. */
struct undo {
	struct undo *before;
	off_t at;
	size_t size;
	char bytes[];
};
static struct undo *last;

static unsigned long number(const char *name)
{
	const char *word = getenv(name);
	return word ? strtoul(word, NULL, 10) : 0;
}

__attribute__((constructor)) static void begin(void)
{
	volume = getenv("VOLUME");
	counts = getenv("COUNTS");
	loses = getenv("LOSE") != NULL;
	refused_allocation = number("MEMORY");
	first_failed_call = number("CALL");
	first_failed_output = number("OUTPUT");
	allocations = 0;
}

/* Adds a write that was done, or a sync, to the record. */
static void record(const void *bytes, size_t size, off_t at)
{
	const char *path = getenv("RECORD");
	if (!path)
		return;
	if (record_fd < 0)
		record_fd = REAL(open)(path, O_WRONLY | O_CREAT | O_TRUNC, 0600);
	unsigned long head[2] = {at, size};
	if (REAL(write)(record_fd, head, sizeof head) != sizeof head || REAL(write)(record_fd, bytes, size) != (ssize_t)size)
		_exit(99);
}

static int is_refused(void)
{
	return ++allocations == refused_allocation;
}

void *malloc(size_t size)
{
	if (is_refused()) {
		errno = ENOMEM;
		return NULL;
	}
	return __libc_malloc(size);
}

void *realloc(void *old, size_t size)
{
	if (is_refused()) {
		errno = ENOMEM;
		return NULL;
	}
	return __libc_realloc(old, size);
}

static int fails(void)
{
	calls++;
	if (!first_failed_call || calls < first_failed_call)
		return 0;
	errno = EIO;
	return 1;
}

static int is_volume(const char *path)
{
	return volume && !strcmp(path, volume);
}

static int opened(const char *path, int fd)
{
	if (is_volume(path))
		volume_fd = fd;
	return fd;
}

int open(const char *path, int flags, ...)
{
	va_list more;
	va_start(more, flags);
	mode_t mode = va_arg(more, mode_t);
	va_end(more);
	if (is_volume(path) && fails())
		return -1;
	return opened(path, REAL(open)(path, flags, mode));
}

int openat(int at, const char *path, int flags, ...)
{
	va_list more;
	va_start(more, flags);
	mode_t mode = va_arg(more, mode_t);
	va_end(more);
	if (is_volume(path) && fails())
		return -1;
	return opened(path, REAL(openat)(at, path, flags, mode));
}

off_t lseek(int fd, off_t to, int from)
{
	return fd == volume_fd && fails() ? -1 : REAL(lseek)(fd, to, from);
}

ssize_t pread(int fd, void *into, size_t size, off_t at)
{
	return fd == volume_fd && fails() ? -1 : REAL(pread)(fd, into, size, at);
}

static void note(int fd, size_t size, off_t at)
{
	struct undo *it = __libc_malloc(sizeof *it + size);
	if (!it || REAL(pread)(fd, it->bytes, size, at) != (ssize_t)size)
		_exit(99);
	it->at = at;
	it->size = size;
	it->before = last;
	last = it;
}

ssize_t pwrite(int fd, const void *from, size_t size, off_t at)
{
	if (fd != volume_fd)
		return REAL(pwrite)(fd, from, size, at);
	if (fails())
		return -1;
	if (loses)
		note(fd, size, at);
	ssize_t done = REAL(pwrite)(fd, from, size, at);
	if (done > 0)
		record(from, done, at);
	return done;
}

/* Whether a sync of this file fails; where it does not, what was written to the volume stays. */
static int sync_fails(int fd)
{
	if (fd != volume_fd)
		return 0;
	if (fails())
		return 1;
	last = NULL;
	return 0;
}

/* The sync of a volume that was done is recorded. */
static int synced(int fd, int result)
{
	if (fd == volume_fd && result == 0)
		record("", 0, 0);
	return result;
}

int fsync(int fd)
{
	return sync_fails(fd) ? -1 : synced(fd, REAL(fsync)(fd));
}

int fdatasync(int fd)
{
	return sync_fails(fd) ? -1 : synced(fd, REAL(fdatasync)(fd));
}

ssize_t write(int fd, const void *from, size_t size)
{
	if (fd == 1 && ++outputs >= first_failed_output && first_failed_output) {
		errno = ENOSPC;
		return -1;
	}
	return REAL(write)(fd, from, size);
}

ssize_t __write(int fd, const void *from, size_t size)
{
	return write(fd, from, size);
}

__attribute__((destructor)) static void end(void)
{
	int fd = loses && volume ? REAL(open)(volume, O_WRONLY) : -1;
	for (; fd >= 0 && last; last = last->before)
		if (REAL(pwrite)(fd, last->bytes, last->size, last->at) != (ssize_t)last->size)
			_exit(99);
	if (!counts)
		return;
	unsigned long of_memory = allocations;
	int told = REAL(open)(counts, O_WRONLY | O_CREAT | O_TRUNC, 0600);
	char line[96];
	int length = snprintf(line, sizeof line, "%lu %lu %lu\n", of_memory, calls, outputs);
	if (told < 0 || REAL(write)(told, line, length) != length)
		_exit(99);
}
