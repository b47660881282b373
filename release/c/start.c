/* What a program that the kit built takes of the GNU C library, and musl 1.2.3 or an old Linux lacks.

   release/static.py puts the program's code, as it was proved and built, behind the functions of musl. They are the same functions but for the ones
   here. Linux before 3.17 has no getrandom, and Linux before 4.11 no statx; the program itself asks for nothing newer than Linux 3.2. */
#define _GNU_SOURCE
#include <errno.h>
#include <fcntl.h>
#include <stdint.h>
#include <sys/stat.h>
#include <sys/syscall.h>
#include <sys/sysmacros.h>
#include <unistd.h>

/* ---- the start ---- */

/* What the dynamic loader would call of the program before and after its main. */
typedef void step(int, char **, char **);
extern step *const program_begin[], *const program_begin_end[];
extern void (*const program_end[])(void), (*const program_end_end[])(void);
extern int program_main(int, char **, char **);

int main(int count, char **words, char **environment)
{
	for (step *const *it = program_begin; it != program_begin_end; it++)
		(*it)(count, words, environment);
	int status = program_main(count, words, environment);
	for (void (*const *it)(void) = program_end_end; it != program_end;)
		(*--it)();
	return status;
}

/* ---- what musl lacks ---- */

ssize_t __write(int file, const void *bytes, size_t size) { return write(file, bytes, size); }

/* What the processor has: the registers eax, ebx, ecx and edx of a leaf, and then what of them can be used. A program asks before its first step for
   what it was compiled for, which are instructions alone that need nothing of the system. The leaves are 1, 7 and 0x80000001. */
struct leaf {
	uint32_t has[4], usable[4];
};

const struct leaf *__x86_get_cpuid_feature_leaf(unsigned number)
{
	static const uint32_t leaves[] = {1, 7, 0x80000001};
	/* SSE3, SSSE3, CMPXCHG16B, SSE4.1, SSE4.2, POPCNT; LAHF and SAHF */
	static const uint32_t plain[] = {0x982201, 0, 1};
	static struct leaf found[3], none;
	if (number >= 3)
		return &none;
	struct leaf *it = &found[number];
	uint32_t last, others[3];
	__asm__("cpuid" : "=a"(last), "=b"(others[0]), "=c"(others[1]), "=d"(others[2]) : "a"(leaves[number] & 0x80000000), "c"(0));
	if (last < leaves[number])
		return &none;
	__asm__("cpuid" : "=a"(it->has[0]), "=b"(it->has[1]), "=c"(it->has[2]), "=d"(it->has[3]) : "a"(leaves[number]), "c"(0));
	it->usable[2] = it->has[2] & plain[number];
	return it;
}

/* ---- what an old Linux lacks ---- */

/* Random bytes of the device /dev/urandom, where Linux has no call for them. */
static int from_device(char *bytes, size_t size)
{
	int file = open("/dev/urandom", O_RDONLY | O_CLOEXEC | O_NOCTTY);
	if (file < 0)
		return -1;
	while (size > 0) {
		ssize_t count = read(file, bytes, size);
		if (count < 0 && errno == EINTR)
			continue;
		if (count <= 0) {
			close(file);
			errno = EIO;
			return -1;
		}
		bytes += count;
		size -= (size_t)count;
	}
	close(file);
	return 0;
}

int getentropy(void *bytes, size_t size)
{
	size_t done = 0;
	if (size > 256) {
		errno = EIO;
		return -1;
	}
	while (done < size) {
		long count = syscall(SYS_getrandom, (char *)bytes + done, size - done, 0);
		if (count < 0 && errno == ENOSYS)
			return from_device((char *)bytes + done, size - done);
		if (count < 0 && errno != EINTR)
			return -1;
		if (count > 0)
			done += (size_t)count;
	}
	return 0;
}

/* The same as Linux's struct statx: musl 1.2.3 has none. */
struct when {
	int64_t seconds;
	uint32_t nanoseconds;
	int32_t rest;
};
struct statx {
	uint32_t mask, blksize;
	uint64_t attributes;
	uint32_t nlink, uid, gid;
	uint16_t mode, rest;
	uint64_t ino, size, blocks, attributes_mask;
	struct when accessed, born, changed, modified;
	uint32_t rdev_major, rdev_minor, dev_major, dev_minor;
	uint64_t spare[14];
};
_Static_assert(sizeof(struct statx) == 256, "the size that Linux writes");

static struct when when(struct timespec it) { return (struct when){.seconds = it.tv_sec, .nanoseconds = (uint32_t)it.tv_nsec}; }

int statx(int folder, const char *path, int flags, unsigned mask, struct statx *to)
{
	if (syscall(SYS_statx, folder, path, flags, mask, to) == 0)
		return 0;
	if (errno != ENOSYS)
		return -1;
	struct stat found;
	/* the older call knows these flags alone; the others say how new what it tells has to be */
	if (fstatat(folder, path, &found, flags & (AT_SYMLINK_NOFOLLOW | AT_NO_AUTOMOUNT | AT_EMPTY_PATH)))
		return -1;
	*to = (struct statx){
		/* all but the time of birth */
		.mask = 0x7ff,
		.blksize = (uint32_t)found.st_blksize,
		.nlink = (uint32_t)found.st_nlink,
		.uid = found.st_uid,
		.gid = found.st_gid,
		.mode = (uint16_t)found.st_mode,
		.ino = found.st_ino,
		.size = (uint64_t)found.st_size,
		.blocks = (uint64_t)found.st_blocks,
		.accessed = when(found.st_atim),
		.changed = when(found.st_ctim),
		.modified = when(found.st_mtim),
		.rdev_major = major(found.st_rdev),
		.rdev_minor = minor(found.st_rdev),
		.dev_major = major(found.st_dev),
		.dev_minor = minor(found.st_dev),
	};
	return 0;
}
