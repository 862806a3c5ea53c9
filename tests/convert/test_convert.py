"""Tests the program that converts saved distances with a plain definition of what it should do.

The first argument is the program. Whatever it refuses or cannot do, the two files have to be what they were, byte for byte,
and the file that it writes first has to be gone.
"""

import os
import random
import resource
import signal
import stat
import subprocess
import sys
import tempfile
import unittest
from pathlib import Path

OLD_FAR, FAR = 2**38, 2**39 - 1
MOST = 31_000_000
GOOD = (0, 1, -1, 7, MOST - 1, MOST, 1 - MOST, -MOST, OLD_FAR)
BAD = (MOST + 1, -MOST - 1, OLD_FAR - 1, OLD_FAR + 1, -OLD_FAR, FAR - 1, FAR, 100 * MOST, 2**63 - 1, -(2**63))
ENDING = ".converting"

program = None


def as_bytes(words):
    """The words as a file has them."""
    return b"".join(word.to_bytes(8, "big", signed=True) for word in words)


def told(words):
    """The converted words, or the line of the refusal."""
    for place, word in enumerate(words):
        if word != OLD_FAR and not -MOST <= word <= MOST:
            return f"refused 11 {place}\n"
    return [FAR if word == OLD_FAR else 100 * word for word in words]


def content(path):
    """What a folder's entry is: a file's bytes, a link's name, or None where there is none."""
    if path.is_symlink():
        return os.readlink(path)
    return path.read_bytes() if path.is_file() else None


def everything(folder):
    """Every entry below a folder."""
    return {path: (stat.S_IFMT(path.lstat().st_mode), content(path)) for path in sorted(folder.rglob("*"))}


class Conversions(unittest.TestCase):
    """Each test has a folder of its own."""

    compared = 0

    def setUp(self):
        folder = tempfile.TemporaryDirectory()
        self.addCleanup(folder.cleanup)
        self.folder = Path(folder.name).resolve()
        self.saved, self.other = self.folder / "saved", self.folder / "other"

    def run_program(self, *arguments, **options):
        """Status, standard output and standard error."""
        done = subprocess.run([program, *arguments], capture_output=True, text=True, check=False, **options)
        return done.returncode, done.stdout, done.stderr

    def changed(self, before):
        """The entries that are new, gone or not what they were."""
        return {path for path, _ in before.items() ^ everything(self.folder).items()}

    def convert(self, saved, converted, status=0, output="", errors="", **options):
        """Runs the program, which does and says this, and leaves everything as it was if it fails."""
        before = everything(self.folder)
        ended = self.run_program(saved, converted, **options)
        self.assertEqual(ended[:2], (status, output))
        self.assertTrue(ended[2].startswith(errors) and bool(ended[2]) == bool(errors), ended)
        self.assertLessEqual(self.changed(before), set() if status != 0 else {converted.resolve()})

    def compare(self, words):
        """Converts a file of these words in place, to a new file and over another one."""
        answer, given = told(words), as_bytes(words)
        refused = isinstance(answer, str)
        for target, before in ((self.saved, given), (self.other, None), (self.other, b"another file")):
            self.other.unlink(missing_ok=True)
            self.saved.write_bytes(given)
            if target is self.other and before is not None:
                self.other.write_bytes(before)
            self.convert(self.saved, target, *((1, answer) if refused else ()))
            self.assertEqual(content(target), before if refused else as_bytes(answer), words[:40])
            if target is self.other:
                self.assertEqual(content(self.saved), given)
            Conversions.compared += 1

    def test_no_word_and_one(self):
        self.compare([])
        for word in GOOD + BAD:
            self.compare([word])

    def test_every_bad_word_in_every_place(self):
        for word in BAD:
            for place in range(4):
                self.compare([*GOOD[:place], word, *GOOD[place:4]])

    def test_the_first_of_several_bad_words(self):
        self.compare([0, *BAD])
        self.compare([OLD_FAR, -MOST, -MOST - 1, OLD_FAR, FAR])

    def test_drawn_words(self):
        chance = random.Random(20)
        for _ in range(60):
            words = [chance.choice((chance.choice(GOOD), chance.randint(-MOST, MOST))) for _ in range(chance.randrange(40))]
            for _ in range(chance.choice((0, 0, 1, 3)) if words else 0):
                words[chance.randrange(len(words))] = chance.choice((*BAD, chance.randint(-(2**63), 2**63 - 1)))
            self.compare(words)

    def test_many_words(self):
        chance = random.Random(21)
        words = [chance.choice((OLD_FAR, chance.randint(-MOST, MOST))) for _ in range(100_000)]
        self.compare(words)
        words[-1] = FAR
        self.compare(words)

    def test_a_converted_file(self):
        self.saved.write_bytes(as_bytes([0, 5, OLD_FAR]))
        self.convert(self.saved, self.saved)
        self.convert(self.saved, self.saved, 1, "refused 11 2\n")

    def test_bytes_left_over(self):
        self.other.write_bytes(b"another file")
        for words in ([], [5], [FAR]):
            for extra in range(1, 8):
                self.saved.write_bytes(as_bytes(words) + b"\0" * extra)
                left = "1 byte is left over" if extra == 1 else f"{extra} bytes are left over"
                errors = f"convert: {self.saved}: is not a whole number of words of eight bytes: {left}\n"
                for target in (self.saved, self.other, self.folder / "new"):
                    self.convert(self.saved, target, 1, "", errors)

    def test_files_that_cannot_be_used(self):
        self.saved.write_bytes(as_bytes([5]))
        missing, folder, inside = self.folder / "missing", self.folder / "folder", self.folder / "none" / "new"
        pipe = self.folder / "pipe"
        folder.mkdir()
        os.mkfifo(pipe)
        self.convert(missing, self.other, 1, "", f"convert: {missing}: cannot be read: No such file")
        self.convert(missing, missing, 1, "", f"convert: {missing}: cannot be read: No such file")
        self.convert(folder, self.other, 1, "", f"convert: {folder}: cannot be read: Is a directory")
        self.convert("", self.other, 1, "", "convert: : cannot be read: No such file")
        self.convert(self.saved, inside, 1, "", f"convert: {inside}{ENDING}: cannot be written: No such file")
        self.convert(self.saved, self.saved / "new", 1, "", f"convert: {self.saved}/new{ENDING}: cannot be written: Not a")
        self.convert(self.saved, folder, 1, "", f"convert: {folder}: cannot be written: it is not a regular file")
        self.convert(self.saved, pipe, 1, "", f"convert: {pipe}: cannot be written: it is not a regular file")
        self.convert(self.saved, "", 1, "", "convert: : cannot be written: No such file", cwd=folder)

    @unittest.skipIf(os.geteuid() == 0, "root may write anywhere")
    def test_a_folder_that_is_not_to_be_written(self):
        self.saved.write_bytes(as_bytes([5]))
        self.folder.chmod(0o500)
        self.addCleanup(self.folder.chmod, 0o700)
        for target in (self.saved, self.other):
            self.convert(self.saved, target, 1, "", f"convert: {target}{ENDING}: cannot be written: Permission denied")

    def test_a_file_left_by_another_conversion(self):
        left = Path(f"{self.saved}{ENDING}")
        self.saved.write_bytes(as_bytes([5]))
        left.write_bytes(b"half")
        self.convert(self.saved, self.saved, 1, "", f"convert: {left}: is there already: ")
        self.convert(left, self.saved, 1, "", f"convert: {left}: ")
        left.unlink()
        left.symlink_to(self.other)
        self.convert(self.saved, self.saved, 1, "", f"convert: {left}: is there already: ")
        left.unlink()
        self.convert(self.saved, self.saved)
        self.assertEqual(content(self.saved), as_bytes([500]))

    def test_a_disk_that_is_too_small(self):
        """A write that fails half-way, and one that ends the program."""
        self.saved.write_bytes(as_bytes([5] * 10_000))
        self.other.write_bytes(b"another file")

        def limited(answer):
            resource.setrlimit(resource.RLIMIT_FSIZE, (8 * 5000, 8 * 5000))
            signal.signal(signal.SIGXFSZ, answer)

        for target in (self.saved, self.other, self.folder / "new"):
            errors = f"convert: {target}{ENDING}: cannot be written: File too large"
            self.convert(self.saved, target, 1, "", errors, preexec_fn=lambda: limited(signal.SIG_IGN))
            before = everything(self.folder)
            ended = self.run_program(self.saved, target, preexec_fn=lambda: limited(signal.SIG_DFL))
            self.assertEqual(ended, (-signal.SIGXFSZ, "", ""))
            left = Path(f"{target}{ENDING}")
            self.assertEqual(left.stat().st_size, 8 * 5000)
            # Half a file is told to be there, not taken for a whole one.
            self.convert(self.saved, target, 1, "", f"convert: {left}: is there already: ")
            left.unlink()
            self.assertEqual(self.changed(before), set())

    def test_links(self):
        """The file that a link leads to is replaced, and the link stays."""
        folder = self.folder / "folder"
        folder.mkdir()
        far, near, nowhere = folder / "far", self.folder / "near", self.folder / "nowhere"
        near.symlink_to("folder/far")
        nowhere.symlink_to("missing")
        for words in ([5, OLD_FAR], [5, FAR]):
            for names in ((near, near), (self.saved, near), (near, far), (far, near)):
                far.write_bytes(as_bytes(words))
                self.saved.write_bytes(as_bytes(words))
                answer = told(words)
                refused = isinstance(answer, str)
                self.convert(*names, *((1, answer) if refused else ()))
                self.assertEqual(content(near), "folder/far")
                self.assertEqual(content(far), as_bytes(words if refused else answer))
                self.assertEqual(content(self.saved), as_bytes(words))
                self.assertEqual(sorted(os.listdir(folder)), ["far"])
        self.saved.write_bytes(b"")
        self.convert(self.saved, nowhere, 1, "", f"convert: {nowhere}: cannot be written: No such file")

    def test_permissions(self):
        for mode in (0o600, 0o640, 0o444, 0o664):
            for target in (self.saved, self.other):
                self.saved.unlink(missing_ok=True)
                self.saved.write_bytes(as_bytes([5]))
                self.saved.chmod(mode)
                self.convert(self.saved, target, umask=0o077)
                self.assertEqual(stat.S_IMODE(target.stat().st_mode), mode)
                self.assertEqual(content(target), as_bytes([500]))

    def test_arguments(self):
        self.saved.write_bytes(as_bytes([5]))
        before = everything(self.folder)
        for names in ([], [self.saved], [self.saved, self.other, self.other]):
            status, output, errors = self.run_program(*names)
            self.assertEqual((status, output), (2, ""))
            self.assertTrue(errors.startswith("convert: expected two names"), errors)
        status, output, errors = self.run_program("--help")
        self.assertEqual((status, errors), (0, ""))
        self.assertTrue(output.startswith("usage: convert SAVED CONVERTED\n"), output)
        self.assertTrue(all(len(line) <= 80 for line in output.splitlines()))
        self.assertEqual(self.changed(before), set())

    def test_no_room_on_standard_output(self):
        self.saved.write_bytes(as_bytes([FAR]))
        with open("/dev/full", "wb") as full:
            done = subprocess.run([program, self.saved, self.other], stdout=full, stderr=subprocess.PIPE, check=False)
        self.assertEqual(done.returncode, 1)
        self.assertTrue(done.stderr.startswith(b"convert: standard output: cannot be written: No space left"), done)


if __name__ == "__main__":
    program = Path(sys.argv.pop(1)).resolve()
    result = unittest.main(exit=False).result
    print(f"{Conversions.compared} files compared, {result.testsRun} tests, {len(result.skipped)} skipped")
    sys.exit(not result.wasSuccessful())
