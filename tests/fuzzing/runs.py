"""What a run of each command has to keep on a changed volume."""

import re
import subprocess

from base import PAGE

REFUSED = re.compile(rb"refused (19 image )?\d+ [a-z]+( \d+)*\n")
NO_SPACE = re.compile(rb"refused 15 space \d+ \d+ \d+ \d+\n")
# Where the superblock of Btrfs has copies.
COPIES = {16384, 1 << 26}


class Wrong(Exception):
    """What a run did that it must not do."""


class Runs:
    """The runs of a program. `every` says of how many conversions one is checked by btrfs."""

    def __init__(self, program, every):
        self.program, self.every = program, every
        self.converted = self.checked = self.spared = 0

    def draw(self, base, rng):
        """A command for a volume."""
        weights = {"inspect": 2, "list": 4, "recover": 2, "convert": 8 if base.log else 1, "rollback": 1 if base.log else 6}
        known = [word for word in weights if word in self.program.commands]
        return rng.choices(known, [weights[word] for word in known])[0]

    def ended(self, command, draft, *options):
        """Runs a command. Status, lines, time and memory are as they have to be."""
        ended = self.program.run(command, *options, draft.base.path)
        line = ended.err[:200].decode("ascii", "replace").strip()
        if ended.seconds > self.program.seconds:
            raise Wrong(f"{command} took {ended.seconds:.1f} seconds")
        if ended.megabytes > self.program.megabytes:
            raise Wrong(f"{command} took {ended.megabytes} MB")
        good = {0: ended.err == b"", 1: REFUSED.fullmatch(ended.err), 6: NO_SPACE.fullmatch(ended.err)}
        if not good.get(ended.status):
            raise Wrong(f"{command} ended with status {ended.status} and {line!r}")
        if ended.status and ended.out:
            raise Wrong(f"{command} printed text with status {ended.status}")
        if ended.status == 6 and command not in ("convert", "rollback"):
            raise Wrong(f"{command} ended with status 6")
        return ended

    def unchanged(self, command, draft, spared=()):
        """The file is as the draft has it, but for some blocks."""
        differing = [page for page in draft.differing() if page not in spared]
        if differing:
            raise Wrong(f"{command} changed the blocks {differing[:10]}")

    def make(self, command, draft):
        """Makes the run of a command, and answers its status."""
        if command == "convert":
            return self.convert(draft)
        ended = self.ended(command, draft)
        if command == "rollback" and ended.status == 0:
            self.is_reiserfs(draft)
            draft.base.whole()
            return 0
        self.unchanged(command, draft, COPIES if command == "recover" and ended.status == 0 else ())
        if command == "recover" and ended.status == 0:
            self.recovered(ended, draft)
        if command in ("inspect", "list") and draft.base.log:
            other = self.ended("list" if command == "inspect" else "inspect", draft)
            self.one_verdict(command, ended.status, other.status)
        return ended.status

    def one_verdict(self, command, status, other):
        """A ReiserFS volume is taken by all commands or by none."""
        if (status in (0, 6)) != (other == 0):
            raise Wrong(f"{command} ended with {status}, and another command with {other}")

    def recovered(self, ended, draft):
        """A second recovery writes nothing."""
        again = self.ended("recover", draft)
        if again.out.split() != [*ended.out.split()[:3], b"mirrors", b"0"]:
            raise Wrong(f"a second recovery printed {again.out!r}")
        for copy in COPIES & set(draft.differing()):
            draft.changed.setdefault(copy, draft.page(copy))

    def is_reiserfs(self, draft):
        """What a rollback leaves is an accepted ReiserFS volume."""
        inspected, listed = self.ended("inspect", draft), self.ended("list", draft)
        if inspected.status or listed.status or not inspected.out.startswith(b"format reiserfs\n"):
            raise Wrong(f"after rollback inspect ended with {inspected.status} and list with {listed.status}")

    def convert(self, draft):
        """Converts, with the same rows before and behind."""
        before = self.ended("list", draft)
        ended = self.ended("convert", draft)
        if ended.status:
            self.unchanged("convert", draft)
            if draft.base.log:
                self.one_verdict("convert", ended.status, before.status)
            return ended.status
        self.one_verdict("convert", 0, before.status)
        after = self.ended("list", draft)
        if after.status or after.out != before.out:
            raise Wrong(f"list after convert ended with {after.status}, and printed {'the same' if after.out == before.out else 'other rows'}")
        self.converted += 1
        if self.converted % self.every == 0:
            self.check(draft)
        if "rollback" in self.program.commands:
            self.bring_back(draft, before)
        draft.base.whole()
        return 0

    def check(self, draft):
        """btrfs finds nothing in the volume and its data."""
        checked = subprocess.run(["btrfs", "check", "--check-data-csum", draft.base.path], capture_output=True, text=True)
        self.checked += 1
        if checked.returncode or "no error found" not in checked.stdout:
            raise Wrong(f"btrfs check ended with {checked.returncode}: {checked.stderr[:300]!r}")

    def bring_back(self, draft, before):
        """A rollback of a conversion gives back the rows, and each used block."""
        ended = self.ended("rollback", draft)
        after = self.ended("list", draft)
        if ended.status or after.status or after.out != before.out:
            raise Wrong(f"rollback ended with {ended.status}, and list with {after.status}")
        used = draft.read(17 * PAGE, PAGE)
        lost = [page for page in draft.differing() if page < 32768 and used[page // 8] >> page % 8 & 1]
        if lost:
            raise Wrong(f"rollback did not bring back the blocks {lost[:10]}")

    def summary(self):
        """What was looked at, and the most that a run took."""
        most = f"at most {self.program.most_seconds:.2f} seconds and {self.program.most_megabytes} MB for a run"
        return f"{self.converted} converted, {self.checked} of them checked by btrfs; {most}"
