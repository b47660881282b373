"""Volumes as pages of 4096 bytes, where their metadata lies, and drafts: volumes with changes that are not written yet."""

import os

PAGE = 4096
ZEROS = bytes(PAGE)


def data_of(file, size):
    """The parts of an open file that are no holes, as (offset, bytes) of whole pages."""
    at = 0
    while at < size:
        try:
            at = os.lseek(file, at, os.SEEK_DATA)
        except OSError:
            return
        end = os.lseek(file, at, os.SEEK_HOLE)
        at -= at % PAGE
        yield at, os.pread(file, end - at, at)
        at = end + -end % PAGE


def pages_of(file, size):
    """The pages of an open file that are not zeros, by their numbers."""
    pages = {}
    for at, data in data_of(file, size):
        for i in range(0, len(data), PAGE):
            page = data[i : i + PAGE].ljust(PAGE, b"\0")
            if page != ZEROS:
                pages[(at + i) // PAGE] = page
    return pages


class Group:
    """Spans of metadata that have one form, as (offset, length), and the fields in each, as (offset, width)."""

    def __init__(self, fields):
        self.fields, self.spans = fields, []

    def fields_of(self, length):
        """The fields that lie in a span of this length; where the form has none, its bytes by fours."""
        return [f for f in self.fields if sum(f) <= length] or [(at, 4) for at in range(0, length - 3, 4)]


class Base:
    """A volume that is changed: its pages, its metadata by groups, where its nodes and leaves lie, and of ReiserFS the blocks of its
    log. `path` is the file that gets the changes."""

    def __init__(self, name, path):
        self.name, self.path, self.groups, self.nodes, self.leaves, self.log = name, path, {}, [], [], 0
        self.file = os.open(path, os.O_RDWR)
        self.size = os.fstat(self.file).st_size
        self.pages = pages_of(self.file, self.size)

    def read(self, offset, length):
        return read_pages(self.pages.get, offset, length)

    def span(self, group, offset, length, fields=()):
        """Adds a span to a group."""
        self.groups.setdefault(group, Group(fields)).spans.append((offset, length))

    def whole(self):
        """Writes the volume anew."""
        os.ftruncate(self.file, 0)
        os.ftruncate(self.file, self.size)
        for number, page in self.pages.items():
            os.pwrite(self.file, page, number * PAGE)


def read_pages(page, offset, length):
    """Bytes of a volume whose pages a function gives."""
    parts, end = [], offset + length
    while offset < end:
        number, at = divmod(offset, PAGE)
        take = min(PAGE - at, end - offset)
        parts.append((page(number) or ZEROS)[at : at + take])
        offset += take
    return b"".join(parts)


class Draft:
    """A base with changes, which are told in words in `told`. `size` is the length of the file."""

    def __init__(self, base):
        self.base, self.changed, self.told, self.size = base, {}, [], base.size

    def page(self, number):
        return self.changed.get(number) or self.base.pages.get(number)

    def read(self, offset, length):
        return read_pages(self.page, offset, length)

    def write(self, offset, data):
        """Changes bytes; those past the file's end are left out."""
        while data and offset < self.base.size:
            number, at = divmod(offset, PAGE)
            page = bytearray(self.page(number) or ZEROS)
            part, data = data[: PAGE - at], data[PAGE - at :]
            page[at : at + len(part)] = part
            self.changed[number] = bytes(page)
            offset += len(part)

    def tell(self, text):
        self.told.append(text)

    def apply(self):
        """Writes the changes into the base's file."""
        for number, page in self.changed.items():
            os.pwrite(self.base.file, page, number * PAGE)
        os.ftruncate(self.base.file, self.size)

    def undo(self):
        """Writes the base's pages again."""
        os.ftruncate(self.base.file, self.base.size)
        for number in self.changed:
            os.pwrite(self.base.file, self.base.pages.get(number, ZEROS), number * PAGE)
        if self.size < self.base.size:
            self.base.whole()

    def differing(self):
        """The numbers of the pages that the file has otherwise than this draft, and whether its length is the draft's."""
        found, seen = [], 0
        for at, data in data_of(self.base.file, self.base.size):
            for i in range(0, len(data), PAGE):
                number = (at + i) // PAGE
                want = self.page(number) or ZEROS
                if data[i : i + PAGE] != want[: len(data) - i]:
                    found.append(number)
                seen += want != ZEROS
        if seen != self.nonzero():
            found += [n for n in {*self.base.pages, *self.changed} if self.lies_in_a_hole(n)]
        if os.fstat(self.base.file).st_size != self.size:
            found.append(-1)
        return found

    def nonzero(self):
        """How many pages of the draft are not zeros, in its length."""
        count = len(self.base.pages) if self.size == self.base.size else sum(1 for n in self.base.pages if n * PAGE < self.size)
        for number, page in self.changed.items():
            if number * PAGE < self.size:
                count += (page != ZEROS) - (number in self.base.pages)
        return count

    def lies_in_a_hole(self, number):
        """Whether a page that is not zeros lies in a hole of the file."""
        if (self.page(number) or ZEROS) == ZEROS or number * PAGE >= self.size:
            return False
        return os.pread(self.base.file, PAGE, number * PAGE).rstrip(b"\0") == b""
