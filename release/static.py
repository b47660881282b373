#!/usr/bin/env python3
"""Makes a program that runs on any Linux of one that the kit built:

    release/static.py PROGRAM TO

PROGRAM is as `rt ci` leaves it: code and data at fixed distances from each other, with a list of places where the dynamic loader puts the addresses
of the C library's functions and variables. In TO they are those of release/c/library.o, put there once and for all. All other bytes of PROGRAM that are
loaded are in TO as they are, at the same distances, but for the loader's own tables at the beginning. So TO needs no C library and no loader of the
machine that it runs on.

It uses the assembler and the linker of the kit, and compares what they made with PROGRAM. The same PROGRAM and library.o give the same TO, to the
byte. Whatever PROGRAM has that is not known here is refused."""

import os
import shutil
import struct
import subprocess
import sys
import tempfile
from collections import namedtuple
from pathlib import Path

LIBRARY = Path(__file__).resolve().parent / "c/library.o"
BASE, PAGE = 0x400000, 0x1000
Segment = namedtuple("Segment", "kind flags offset at file_size size")
Section = namedtuple("Section", "name kind at offset size link")
Symbol = namedtuple("Symbol", "name is_weak section value")
# A place of eight bytes that takes the address of a symbol, or of a place of the program itself.
Slot = namedtuple("Slot", "at symbol place")

# The numbers of the format ELF that are used.
X86_64, SHARED, LOAD, THREAD_LOCAL, RELRO, SYMBOLS = 62, 3, 1, 7, 0x6474E552, 2
# Kinds of sections that only a loader reads: strings, relocations, hashes, notes, symbols, versions.
LOADERS = (3, 4, 5, 7, 11, 0x6FFFFFF6, 0x6FFFFFFE, 0x6FFFFFFF)
EXECUTE, WRITE, READ = 1, 2, 4
NEEDED, PLT_SIZE, STRINGS, SYMBOL_TABLE, RELA, RELA_SIZE, REL, TEXT_RELOCATIONS, PLT_RELA, RELR = 1, 2, 5, 6, 7, 8, 17, 22, 23, 36
INIT_ARRAY, FINI_ARRAY, INIT_SIZE, FINI_SIZE, PREINIT_ARRAY = 25, 26, 27, 28, 32
ADDRESS_OF = (6, 7)
RELATIVE = 8
# What the program may take of the C library that is no function.
VARIABLES = ("environ",)


def refuse(text):
    sys.exit(f"release/static.py: {text}")


def heads_of(data):
    """The heads of a file's segments."""
    (heads,), (count,) = struct.unpack_from("<Q", data, 32), struct.unpack_from("<H", data, 56)
    found = (struct.unpack_from("<IIQQQQQ", data, heads + 56 * number) for number in range(count))
    return [Segment(it[0], it[1], it[2], it[3], it[5], it[6]) for it in found]


class Program:
    """What is read of a program that the kit built."""

    def __init__(self, data):
        self.data = data
        if data[:6] != b"\x7fELF\x02\x01" or struct.unpack_from("<HH", data, 16) != (SHARED, X86_64):
            refuse("this is no program for x86-64 that a dynamic loader loads")
        (sections,), (count, names) = struct.unpack_from("<Q", data, 40), struct.unpack_from("<HH", data, 60)
        raw = [struct.unpack_from("<IIQQQQI", data, sections + 64 * number) for number in range(count)]
        self.segments = heads_of(data)
        self.sections = [Section(self.text(raw[names][4] + it[0]), it[1], it[3], it[4], it[5], it[6]) for it in raw]
        self.loaded = [it for it in self.segments if it.kind == LOAD]
        self.copied = [self.after_tables(it) for it in self.loaded]
        self.words = self.dynamic()
        if any(it.kind == THREAD_LOCAL and it.size for it in self.segments):
            refuse("the program has memory of its own for each thread")
        for number in (REL, RELR, TEXT_RELOCATIONS, PREINIT_ARRAY):
            if number in self.words:
                refuse(f"the program's dynamic section has a word of kind {number}")

    def after_tables(self, segment):
        """A segment without the heads of the file and the tables for the loader that it begins with."""
        if segment.offset:
            return segment
        at = min(it.at for it in self.sections if it.at and it.name != ".interp" and it.kind not in LOADERS) - segment.at
        return segment._replace(offset=at, at=segment.at + at, file_size=segment.file_size - at, size=segment.size - at)

    def text(self, offset):
        return self.data[offset : self.data.index(b"\0", offset)].decode()

    def offset(self, at):
        """Where in the file the byte is that is loaded to `at`."""
        found = (it.offset + at - it.at for it in self.loaded if it.at <= at < it.at + it.file_size)
        return next(found, None) or refuse(f"nothing is loaded to {at:#x}")

    def dynamic(self):
        section = next((it for it in self.sections if it.name == ".dynamic"), None) or refuse("there is no section .dynamic")
        pairs = list(struct.iter_unpack("<QQ", self.data[section.offset : section.offset + section.size]))
        return {number: value for number, value in reversed(pairs) if number not in (0, NEEDED)}

    def symbol(self, offset, strings):
        name, info, _, section, value, _ = struct.unpack_from("<IBBHQQ", self.data, offset)
        return Symbol(self.text(strings + name), info >> 4 == 2, section, value)

    def main(self):
        table = next((it for it in self.sections if it.kind == SYMBOLS), None) or refuse("the program has no table of symbols")
        strings = self.sections[table.link].offset
        found = (self.symbol(at, strings) for at in range(table.offset, table.offset + table.size, 24))
        return next((it.value for it in found if it.name == "main" and it.section), None) or refuse("the program has no main")

    def slots(self):
        """The places that the dynamic loader writes to."""
        found = []
        for table, size in ((RELA, RELA_SIZE), (PLT_RELA, PLT_SIZE)):
            if not self.words.get(size):
                continue
            start = self.offset(self.words[table])
            for at, kind, number, addend in struct.iter_unpack("<QIIq", self.data[start : start + self.words[size]]):
                if kind == RELATIVE and not number:
                    found.append(Slot(at, None, addend))
                elif kind in ADDRESS_OF and not addend:
                    found.append(Slot(at, self.imported(number), None))
                else:
                    refuse(f"the dynamic loader would do something unknown, of kind {kind}, at {at:#x}")
        return sorted(found, key=lambda it: it.at)

    def imported(self, number):
        symbol = self.symbol(self.offset(self.words[SYMBOL_TABLE]) + 24 * number, self.offset(self.words[STRINGS]))
        if symbol.section:
            refuse(f"the program has its own {symbol.name}, which another one could stand for")
        return symbol

    def is_written(self, segment):
        """Whether a segment stays writable once the dynamic loader has done its work."""
        kept = (it for it in self.segments if it.kind == RELRO)
        return bool(segment.flags & WRITE) and not any(it.at <= segment.at and segment.at + segment.size <= it.at + it.size for it in kept)


def assembled(program, path):
    """The text for the assembler: a section for each segment that is loaded, with all slots filled."""
    slots, lines = program.slots(), []
    for symbol in {it.symbol.name: it.symbol for it in slots if it.symbol and it.symbol.is_weak}.values():
        lines.append(f".weak {symbol.name}")
    for number, it in enumerate(program.copied):
        flags = "a" + "x" * bool(it.flags & EXECUTE) + "w" * program.is_written(it)
        lines.append(f'.section .program{number},"{flags}",@progbits')
        at = it.at
        for slot in slots:
            if it.at <= slot.at < it.at + it.size:
                if slot.at < at or slot.at + 8 > it.at + it.file_size or not it.flags & WRITE:
                    refuse(f"the dynamic loader would write to {slot.at:#x}, which is no place of its own")
                lines += [f'.incbin "{path}",{it.offset + at - it.at},{slot.at - at}'] * (slot.at > at)
                lines.append(f".quad {slot.symbol.name if slot.symbol else f'program_at+{slot.place:#x}'}")
                at = slot.at + 8
        rest = it.at + it.file_size - at
        lines += [f'.incbin "{path}",{it.offset + at - it.at},{rest}'] * (rest > 0)
        lines += [f".zero {it.size - it.file_size}"] * (it.size > it.file_size)
    if sum(any(it.at <= slot.at < it.at + it.size for it in program.copied) for slot in slots) != len(slots):
        refuse("the dynamic loader would write outside of what is loaded")
    said = next((it for it in program.sections if it.name == ".comment"), None)
    if said:
        lines += ['.section .comment,"",@progbits', f'.incbin "{path}",{said.offset},{said.size}']
    return "\n".join([*lines, '.section .note.GNU-stack,"",@progbits', ""])


def layout(program):
    """The linker's script: the library, then the program at its own distances, then what the library writes to."""
    heads, places = [], []
    for number, it in enumerate(program.copied):
        flags = READ | it.flags & EXECUTE | WRITE * program.is_written(it)
        heads.append(f"  program{number} PT_LOAD FLAGS({flags});")
        places += [f"  . = program_at + {it.at:#x};", f"  .program{number} : {{ KEEP(*(.program{number})) }} :program{number}"]
    for name, table, size in (("begin", INIT_ARRAY, INIT_SIZE), ("end", FINI_ARRAY, FINI_SIZE)):
        at, length = program.words.get(table, 0), program.words.get(size, 0)
        places += [f"  program_{name} = program_at + {at:#x};", f"  program_{name}_end = program_at + {at + length:#x};"]
    return "\n".join(
        [
            "ENTRY(_start)",
            "PHDRS {",
            "  constants PT_LOAD FILEHDR PHDRS FLAGS(4);",
            "  code PT_LOAD FLAGS(5);",
            *heads,
            "  data PT_LOAD FLAGS(6);",
            "  stack PT_GNU_STACK FLAGS(6);",
            "}",
            "SECTIONS {",
            f"  . = {BASE:#x} + SIZEOF_HEADERS;",
            "  .rodata : { *(.rodata .rodata.*) } :constants",
            f"  . = ALIGN({PAGE:#x});",
            "  .text : { *(.text .text.* .init .fini) } :code",
            f"  . = ALIGN({PAGE:#x});",
            "  program_at = .;",
            f"  program_main = program_at + {program.main():#x};",
            *places,
            f"  . = ALIGN({PAGE:#x});",
            "  .data : { *(.data .data.* .got .got.plt) } :data",
            "  .bss : { *(.bss .bss.* COMMON) } :data",
            "  /DISCARD/ : { *(.eh_frame .eh_frame_hdr .note.gnu.*) }",
            "}",
            "",
        ]
    )


def is_in(segment, symbol, address):
    """Whether the address of a symbol is in a segment. Of a weak one that is nowhere it is 0."""
    return segment.at <= address < segment.at + segment.size or symbol.is_weak and not address


def look(program, linked):
    """Refuses a linked program where not each byte and each slot of the program is what and where it has to be."""
    loaded = [it for it in heads_of(linked) if it.kind == LOAD]
    code, ours, data = loaded[1], loaded[2:-1], loaded[-1]
    start = ours[0].at - program.copied[0].at
    if [(it.at - start, it.size) for it in ours] != [(it.at, it.size) for it in program.copied]:
        refuse("the linker has changed distances in the program")
    for was, now in zip(program.copied, ours):
        expected = bytearray(program.data[was.offset : was.offset + was.file_size].ljust(was.size, b"\0"))
        found = linked[now.offset : now.offset + now.file_size]
        for slot in program.slots():
            if was.at <= slot.at < was.at + was.size:
                place = slice(slot.at - was.at, slot.at - was.at + 8)
                (address,) = struct.unpack("<Q", found[place])
                if slot.symbol and not is_in(data if slot.symbol.name in VARIABLES else code, slot.symbol, address):
                    refuse(f"the linker has put nothing of the library at {slot.at:#x}, for {slot.symbol.name}")
                expected[place] = struct.pack("<Q", address if slot.symbol else start + slot.place)
        if found != expected:
            refuse("the linker has changed bytes of the program")


def link(program, path, to):
    kit = shutil.which("rt") or refuse("it takes the kit, with its command rt on the PATH")
    tools = Path(kit).resolve().parent.parent / "toolchain/bin"
    with tempfile.TemporaryDirectory() as room:
        Path(room, "program.s").write_text(assembled(program, path), encoding="utf-8")
        Path(room, "layout").write_text(layout(program), encoding="utf-8")
        subprocess.run([tools / "clang", "--target=x86_64-linux-musl", "-c", "program.s", "-o", "program.o"], cwd=room, check=True)
        words = ["-static", "--gc-sections", "--strip-all", "--build-id=none", "-z", f"max-page-size={PAGE}", "-T", "layout"]
        subprocess.run([tools / "ld.lld", *words, "-o", "linked", "program.o", LIBRARY], cwd=room, check=True)
        look(program, Path(room, "linked").read_bytes())
        shutil.copyfile(f"{room}/linked", to)
        os.chmod(to, 0o755)


def main():
    if len(sys.argv) != 3:
        sys.exit(__doc__)
    path, to = (Path(it).resolve() for it in sys.argv[1:])
    try:
        link(Program(path.read_bytes()), path, to)
    except (OSError, ValueError, KeyError, struct.error, subprocess.CalledProcessError) as it:
        refuse(f"{path} was not made into a static program: {it}")


main()
