"""A model of a spinning disk below the page cache of Linux: what a program's reads and writes of one volume cost.
bench/disk.py uses it.

Disk: to go on where the last transfer ended costs nothing but the transfer. A gap forward passes under the head, as
long as its bytes would take, and never longer than a jump. A gap back takes as long, but no less than half of a jump,
since the disk has to turn. The disk's own cache and queue are left out, and so is the program's own time.

PageCache: pages of 4 KiB, of which the one that was used least recently goes first (Linux keeps two lists, which is
near it). A write stays in the cache. All pages that wait are written in ascending order at each fsync, when they are
more than a tenth of the cache (vm.dirty_background_ratio), and when one of them would have to go; the last ones when
the run has ended.

File: the read-ahead of an open file, as ondemand_readahead has it (mm/readahead.c of Linux 6.1). The window is 128 KiB,
as /sys/block/*/queue/read_ahead_kb has it; a read of more pages than that has a window of its own length, up to `call`
bytes.

- A read that misses begins a stream where it is at the start of the volume, or in or right behind the page where the
  last read ended. Four times the pages asked for are read (twice, or the window, where many are asked for), and the
  page behind those asked for is marked.
- A read that misses elsewhere reads what was asked for and no more, but where the pages before it are in the cache, and
  more of them than were asked for: then as many again are read.
- A read that meets a marked page has the next part of the stream read, of twice the size of the last one up to the
  window, whose first page is marked. A page that is in the cache already is left out.

posix_fadvise: WILLNEED reads those pages of the range that are not in the cache, at most `call` bytes of it, at once
and in the order of the calls; ranges that touch are one transfer. (Linux queues them, and the disk's scheduler may sort
what waits: that is left out.) DONTNEED drops pages that do not wait to be written, RANDOM ends the read-ahead,
SEQUENTIAL doubles its window, NORMAL sets it back.
"""

from collections import OrderedDict

PAGE = 4096


class Disk:
    """The head of a disk, the time that passed, its jumps (far ones and those back), and what was moved, in pages."""

    def __init__(self, jump, rate):
        self.jump, self.rate = jump, rate
        self.head, self.seconds, self.jumps, self.read, self.written = None, 0.0, 0, 0, 0

    def move(self, page, count):
        """Goes to a page and transfers so many from there on."""
        gap = self.jump if self.head is None else min(abs(page - self.head) * PAGE / self.rate, self.jump)
        if self.head is None or page < self.head or gap == self.jump:
            self.jumps += 1
            gap = max(gap, self.jump / 2)
        self.seconds += gap + count * PAGE / self.rate
        self.head = page + count

    def move_all(self, pages):
        """Transfers pages in ascending order."""
        first = None
        for page in sorted(pages):
            if first is not None and page != end:
                self.move(first, end - first)
                first = None
            if first is None:
                first = page
            end = page + 1
        if first is not None:
            self.move(first, end - first)


class PageCache:
    """The pages of one volume, of which at most `most` are kept; `pages` is the volume's length."""

    def __init__(self, disk, most, pages):
        self.disk, self.most, self.pages = disk, most, pages
        # the least recently used page first
        self.kept = OrderedDict()
        self.dirty, self.marked = set(), set()

    def put(self, page):
        """Makes a page the one that was used last; it need not have been there."""
        if page in self.kept:
            self.kept.move_to_end(page)
            return
        self.kept[page] = None
        if len(self.kept) > self.most:
            oldest = next(iter(self.kept))
            if oldest in self.dirty:
                self.write_back()
            self.drop(oldest)

    def drop(self, page):
        self.kept.pop(page, None)
        self.marked.discard(page)

    def fetch(self, page, count, mark=None):
        """Reads those of so many pages that are not in the cache, and marks one, where it is among them."""
        first, end = None, min(page + count, self.pages)
        for at in range(page, end):
            if at in self.kept:
                first = self.transfer(first, at)
                continue
            if first is None:
                first = at
            if at == mark:
                self.marked.add(at)
        self.transfer(first, end)
        for at in range(page, end):
            if at not in self.kept:
                self.put(at)

    def transfer(self, first, end):
        """Reads the pages from a first one on, if there is one."""
        if first is not None:
            self.disk.move(first, end - first)
            self.disk.read += end - first

    def write(self, offset, length):
        """Writes bytes; the first and the last page are read before, where they stay in part."""
        first, end = offset // PAGE, -(-(offset + length) // PAGE)
        for page in {first, end - 1}:
            if page not in self.kept and not offset <= page * PAGE < (page + 1) * PAGE <= offset + length:
                self.fetch(page, 1)
        for page in range(first, end):
            self.dirty.add(page)
            self.put(page)
        if len(self.dirty) > self.most // 10:
            self.write_back()

    def write_back(self):
        self.disk.move_all(self.dirty)
        self.disk.written += len(self.dirty)
        self.dirty.clear()

    def kept_before(self, page, most):
        """How many pages right before a page are in the cache, of so many at most."""
        count = 0
        while count < most and page - 1 - count in self.kept:
            count += 1
        return count

    def missing_from(self, page, most):
        """The first page from here on that is not in the cache, or the last that was looked at."""
        end = page + most
        while page < end and page in self.kept:
            page += 1
        return page


def first_size(asked, window):
    """How many pages the first part of a stream has (get_init_ra_size)."""
    size = 1 << (asked - 1).bit_length()
    if size <= window // 32:
        return size * 4
    return size * 2 if size <= window // 4 else window


def next_size(size, window):
    """How many pages follow a part of this size (get_next_ra_size)."""
    if size < window // 16:
        return 4 * size
    return 2 * size if size <= window // 2 else window


class File:
    """An open file of the volume: where it reads next, and its read-ahead; `ahead` and `call` are in bytes."""

    def __init__(self, cache, ahead, call):
        self.cache, self.usual, self.call = cache, ahead // PAGE, max(ahead, call) // PAGE
        self.window, self.random = self.usual, False
        # the last part of the stream, from which page of it on none was read yet, and the page where the last read
        # ended
        self.start, self.size, self.behind, self.previous = 0, 0, 0, None

    def read(self, offset, length):
        end = -(-(offset + length) // PAGE)
        for page in range(offset // PAGE, end):
            if page not in self.cache.kept:
                self.miss(page, end - page)
            self.cache.put(page)
            if page in self.cache.marked:
                self.cache.marked.discard(page)
                self.meet(page, end - page)
            self.previous = page + 1
        self.previous = (offset + length) // PAGE

    def longest(self, asked):
        """The window for a read of so many pages."""
        return min(asked, self.call) if asked > self.window else self.window

    def miss(self, page, asked):
        """A page that is to be read, with so many from it on, is not in the cache."""
        if self.random or not self.window:
            self.cache.fetch(page, min(asked, self.call) if self.window else 1)
            return
        window = self.longest(asked)
        if page and page in (self.start + self.size - self.behind, self.start + self.size):
            self.go_on(page, window)
        elif page == 0 or asked > window or (self.previous is not None and 0 <= page - self.previous <= 1):
            size = first_size(asked, window)
            self.stream(page, page, size, size - asked if size > asked else size, window)
        else:
            before = self.cache.kept_before(page, window)
            if before <= asked:
                self.cache.fetch(page, asked)
                return
            # a stream from the start of the volume
            before *= 2 if before == page else 1
            self.stream(page, page, min(before + asked, window), 1, window)

    def meet(self, page, asked):
        """A page that was read, with so many from it on, had the mark."""
        if self.random or not self.window:
            return
        window = self.longest(asked)
        if page in (self.start + self.size - self.behind, self.start + self.size):
            self.go_on(page, window)
            return
        missing = self.cache.missing_from(page + 1, window)
        if missing - page <= window:
            size = next_size(missing - page + asked, window)
            self.stream(page, missing, size, size, window)

    def go_on(self, page, window):
        size = max(self.size, next_size(self.size, window))
        self.stream(page, self.start + self.size, size, size, window)

    def stream(self, page, start, size, behind, window):
        """Reads a part of a stream, and marks the page from which on none is asked for yet. Where that is the page
        which is read now, the next part is read at once."""
        if page == start and size == behind:
            more = next_size(size, window)
            size, behind = (size + more, more) if size + more <= window else (window, window // 2)
        self.start, self.size, self.behind = start, size, behind
        self.cache.fetch(start, size, start + size - behind)

    def advise(self, offset, length, advice):
        """posix_fadvise; a length of 0 reaches to the end."""
        end = offset + length if length else self.cache.pages * PAGE
        if advice == "WILLNEED":
            first = offset // PAGE
            self.cache.fetch(first, min(-(-end // PAGE) - first, self.call))
        elif advice == "DONTNEED":
            for page in [it for it in self.cache.kept if offset <= it * PAGE and (it + 1) * PAGE <= end and it not in self.cache.dirty]:
                self.cache.drop(page)
        elif advice in ("NORMAL", "RANDOM", "SEQUENTIAL"):
            self.random = advice == "RANDOM"
            self.window = self.usual * (2 if advice == "SEQUENTIAL" else 1)
