#!/usr/bin/env python3
"""What runs of the program would take on a spinning disk, by a model over their traced calls.

    bench/disk.py [OPTION..] VOLUME           # a round: inspect, list, convert, and what goes on the new volume
    bench/disk.py [OPTION..] VOLUME WORDS..   # one run with these words, as convert --no-datasum

    --cache MIB[,MIB..]   the page cache (256); with several, there is a line for each
    --jump MS             a jump of the head (8)
    --rate MB             what the disk moves in a second (100)
    --ahead KIB           the read-ahead of Linux (128; 0 is none)
    --call KIB            how much of a range posix_fadvise(WILLNEED) takes (1024)
    --sync MS             what an fsync takes beside the writes (20)
    --trace FOLDER        keeps the traces there

Each run is under strace, on a copy of the volume, and begins with an empty cache. RECONV names the program, by itself
the one that ./reiserconv runs. All calls that have the volume are read: what they read and write, where, and in which
order. bench/page_cache.py says what is modelled; a call that is not ends this with an error. A line of the table:

    calls      reads, writes, advices and syncs
    MiB read   what the disk moves, so with what is read ahead and what is read again; `written` likewise
    each       how often the program reads a page, by mean over the pages that it reads
    jumps      of the head, far ones and those back
    seconds    of the disk, by the model
    ideal      the same for each page that the run reads, once and in ascending order, and then each page that it
               writes, once and in ascending order; what it wrote before it read it need not be read
    times      seconds by ideal

For `recover` the superblock's copy at 64 MiB is overwritten before, so that there is something to do. It needs strace
(Debian's package) and room for a copy.
"""

import argparse
import os
import re
import subprocess
import sys
import tempfile
from pathlib import Path

from page_cache import PAGE, Disk, File, PageCache

TOP = Path(__file__).resolve().parent.parent
COPY = 64 << 20
ROUND = [
    ("inspect", ["inspect"]),
    ("list", ["list"]),
    ("convert", ["convert"]),
    ("inspect, new", ["inspect"]),
    ("list, new", ["list"]),
    ("recover, new", ["recover"]),
    ("rollback", ["rollback"]),
]
CALL = re.compile(r"(?:\d+ +)?(\w+)\((.*)\) += (-?\d+)")
UNFINISHED, RESUMED = " <unfinished ...>", re.compile(r"<\.\.\. \w+ resumed>")
READS = {"read": None, "readv": None, "pread64": 3, "preadv": 3}
WRITES = {"write": None, "writev": None, "pwrite64": 3, "pwritev": 3}
# calls that neither read nor write the volume
HARMLESS = set("close flock fstat fstatfs newfstatat stat lstat statx readlink access faccessat faccessat2".split())
ASKING = {"fcntl": r"F_(GETFD|SETFD|GETFL|SETFL|[GS]ETLKW?)", "ioctl": r"BLK\w*GET|BLKGETSIZE"}


def program():
    """The program that is measured."""
    if "RECONV" in os.environ:
        return os.environ["RECONV"]
    return subprocess.run([TOP / "release/find.sh", "reiserconv"], check=True, stdout=subprocess.PIPE, text=True).stdout.strip()


def trace(words, volume, out):
    """Runs the program and keeps its calls that have the volume."""
    command = ["strace", "-f", "--seccomp-bpf", "-s", "0", "-e", "trace=%desc", "-P", str(volume), "-o", str(out), program(), *words, str(volume)]
    done = subprocess.run(command, stdout=subprocess.DEVNULL, stderr=subprocess.PIPE, text=True)
    if done.returncode:
        sys.exit(f"{' '.join(words)}: {done.stderr.strip()}")


def calls_of(path):
    """(name, arguments, result) of each call that succeeded; one that another thread cut in two counts where it
    ends."""
    begun = {}
    with open(path) as lines:
        for line in lines:
            thread, _, rest = line.rstrip("\n").partition(" ")
            if rest.endswith(UNFINISHED):
                begun[thread] = rest[: -len(UNFINISHED)].strip()
                continue
            if RESUMED.match(rest.strip()):
                rest = begun.pop(thread) + RESUMED.sub("", rest.strip())
            call = CALL.match(rest.strip())
            if call and int(call[3]) >= 0:
                yield call[1], call[2].split(", "), int(call[3])


def events_of(path):
    """What a run does with the volume: (what, file, offset, length) with the file's number, or for an advice its name
    as a fifth. The offset of a read where the file stands is reckoned."""
    places, files, opened = {}, {}, 0
    for name, words, result in calls_of(path):
        if name in ("open", "openat"):
            if "O_DIRECT" in words[-1] or "SYNC" in " ".join(words[1:]):
                sys.exit(f"there is no rule for a volume opened with {' '.join(words[1:])}")
            opened += 1
            places[result], files[result] = 0, opened
            continue
        number = int(words[0]) if words[0].isdigit() else None
        if name == "lseek":
            places[number] = result
        elif name in READS or name in WRITES:
            at = (READS if name in READS else WRITES)[name]
            offset = places[number] if at is None else int(words[-1])
            if at is None:
                places[number] += result
            if result:
                yield "read" if name in READS else "write", files[number], offset, result
        elif name in ("fsync", "fdatasync"):
            yield "sync", files[number], 0, 0
        elif name == "readahead":
            yield "advise", files[number], int(words[1]), int(words[2]), "WILLNEED"
        elif name == "fadvise64":
            yield "advise", files[number], int(words[1]), int(words[2]), words[3].replace("POSIX_FADV_", "")
        elif name not in HARMLESS and not (name in ASKING and re.match(ASKING[name], words[1])):
            sys.exit(f"there is no rule for the call {name}({', '.join(words)})")


def modelled(events, options, cache, pages):
    """The disk behind a run with so much cache."""
    disk = Disk(options.jump / 1e3, options.rate * 1e6)
    kept = PageCache(disk, cache * 256, pages)
    files = {}
    for what, number, offset, length, *advice in events:
        file = files.setdefault(number, File(kept, options.ahead * 1024, options.call * 1024))
        if what == "read":
            file.read(offset, length)
        elif what == "write":
            kept.write(offset, length)
        elif what == "advise":
            file.advise(offset, length, *advice)
        else:
            kept.write_back()
            disk.seconds += options.sync / 1e3
    kept.write_back()
    return disk


def pages_of(offset, length):
    return range(offset // PAGE, -(-(offset + length) // PAGE))


def ideal(events, options):
    """The disk behind a run that reads and writes each page once and in order, and how often the run reads each
    page."""
    read, written, times = set(), set(), 0
    for what, _, offset, length, *_ in events:
        if what == "read":
            times += len(pages_of(offset, length))
            read.update(it for it in pages_of(offset, length) if it not in written)
        elif what == "write":
            written.update(pages_of(offset, length))
    disk = Disk(options.jump / 1e3, options.rate * 1e6)
    disk.move_all(read)
    disk.move_all(written)
    return disk, times / max(len(read), 1)


def header():
    print("| command | cache MiB | calls | MiB read | written | each | jumps | seconds | ideal | times |")
    print("|---|---|---|---|---|---|---|---|---|---|")


def lines(name, events, options, pages):
    """The table's lines of one run."""
    best, each = ideal(events, options)
    for cache in options.cache:
        disk = modelled(events, options, cache, pages)
        moved = f"{disk.read / 256:.1f} | {disk.written / 256:.1f} | {each:.2f} | {disk.jumps}"
        ratio = disk.seconds / best.seconds if best.seconds else 1
        print(f"| {name} | {cache} | {len(events)} | {moved} | {disk.seconds:.2f} | {best.seconds:.2f} | {ratio:.2f} |", flush=True)


def measure(name, words, volume, options, folder):
    """Runs the program and prints the lines."""
    out = folder / (name.replace(", ", "-").replace(" ", "-") + ".trace")
    trace(words, volume, out)
    lines(name, list(events_of(out)), options, os.path.getsize(volume) // PAGE)


def read_options():
    parser = argparse.ArgumentParser(description=__doc__, formatter_class=argparse.RawDescriptionHelpFormatter)
    parser.add_argument("--cache", type=lambda text: [int(it) for it in text.split(",")], default=[256])
    for name, value in (("jump", 8.0), ("rate", 100.0), ("sync", 20.0)):
        parser.add_argument("--" + name, type=float, default=value)
    for name, value in (("ahead", 128), ("call", 1024)):
        parser.add_argument("--" + name, type=int, default=value)
    parser.add_argument("--trace", type=Path)
    parser.add_argument("volume")
    parser.add_argument("words", nargs=argparse.REMAINDER)
    return parser.parse_args()


def main():
    options = read_options()
    runs = [(" ".join(options.words), options.words)] if options.words else ROUND
    with tempfile.TemporaryDirectory() as work:
        volume, folder = Path(work) / "volume", options.trace or Path(work)
        folder.mkdir(exist_ok=True)
        subprocess.run(["cp", "--sparse=always", options.volume, volume], check=True)
        header()
        for name, words in runs:
            if words == ["recover"] and os.path.getsize(volume) > COPY + PAGE:
                with open(volume, "r+b") as out:
                    out.seek(COPY)
                    out.write(bytes(PAGE))
            measure(name, words, volume, options, folder)


if __name__ == "__main__":
    main()
