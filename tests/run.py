#!/usr/bin/env python3
"""Runs the program on each test of this folder and compares what it prints. README.md says what a test is."""
import argparse
import concurrent.futures
import difflib
import os
import shlex
import subprocess
import sys

HERE = os.path.dirname(os.path.abspath(__file__))
INPUTS = (".sql", ".make.py", ".from")
ENDS = INPUTS + (".out", ".to", ".memory", ".words", ".status", ".err", ".cases")
ESCAPES = {"n": b"\n", "r": b"\r", "t": b"\t", "\\": b"\\"}


class Test:
    """One run of the program: what it is given, and what has to come of it."""

    def __init__(self, name, words, status, out, err, given=b""):
        self.name = name
        self.words = words
        self.status = status
        self.out = out
        self.err = err
        self.given = given
        self.make = self.source = self.sink = self.memory = None

    def run(self, program, seconds):
        """The lines that say what is wrong; none where all is as it has to be."""
        given = self.given
        if self.make:
            given = subprocess.run([sys.executable, self.make], stdout=subprocess.PIPE, check=True).stdout
        ways = {"input": given}
        if self.source:
            ways = {"stdin": os.open(self.source, os.O_RDONLY)}
        ways["stdout"] = os.open(self.sink, os.O_WRONLY) if self.sink else subprocess.PIPE
        if self.memory:
            program = ["bash", "-c", 'ulimit -v "$0" && exec "$@"', self.memory] + program
        try:
            done = subprocess.run(program + self.words, stderr=subprocess.PIPE, timeout=seconds, **ways)
        except subprocess.TimeoutExpired:
            return ["no answer within %g seconds" % seconds]
        finally:
            for way in (ways.get("stdin"), ways["stdout"] if self.sink else None):
                if way is not None:
                    os.close(way)
        wrong = []
        if done.returncode != self.status:
            wrong.append("exit status %d, and not %d" % (done.returncode, self.status))
        wrong += differences("standard output", self.out, done.stdout or b"")
        wrong += differences("standard error", self.err, done.stderr)
        return wrong


def differences(of, wanted, found):
    if wanted == found:
        return []
    sides = [bytes(side).decode("utf-8", "backslashreplace").splitlines() for side in (wanted, found)]
    lines = list(difflib.unified_diff(*sides, "wanted", "found", "", "", 1))[2:]
    return ["%s:" % of] + (lines or ["other line ends, or no line end at the end"])


def read(path, otherwise):
    if not os.path.exists(path):
        return otherwise
    with open(path, "rb") as file:
        return file.read()


def unescaped(text):
    r"""The bytes of a text in which \n, \r, \t, \\ and \x with two digits stand for themselves."""
    done = bytearray()
    place = 0
    while place < len(text):
        if text[place] != "\\":
            done += text[place].encode()
            place += 1
        elif text[place + 1] == "x":
            done.append(int(text[place + 2:place + 4], 16))
            place += 4
        else:
            done += ESCAPES[text[place + 1]]
            place += 2
    return bytes(done)


def case_of(name, line):
    """The test of a line `STATUS TEXT [WORDS] <- INPUT`, of which TEXT and [WORDS] may be left out."""
    wanted, _, given = line.partition("<-")
    wanted, given = wanted.strip(), given.removeprefix(" ")
    words = ["order"]
    if wanted.endswith("]"):
        wanted, _, shell = wanted[:-1].partition("[")
        words = [os.fsdecode(word) for word in case_words(shell)]
    status, _, text = wanted.strip().partition(" ")
    text = unescaped(text)
    if int(status) == 0:
        return Test(name, words, 0, text, b"", unescaped(given))
    return Test(name, words, int(status), b"", b"mviewdb: " + text + b"\n" if text else b"", unescaped(given))


def case_words(shell):
    # A backslash is one of ours and none of the shell's.
    lexer = shlex.shlex(shell, posix=True)
    lexer.whitespace_split, lexer.escape, lexer.commenters = True, "", ""
    return [unescaped(word) for word in lexer]


def cases_in(path, name):
    with open(path, encoding="utf-8") as file:
        for number, line in enumerate(file, 1):
            line = line.rstrip("\n")
            if line and not line.startswith("#"):
                yield case_of("%s line %d" % (name, number), line)


def tests_in(folder):
    """All tests of a folder. A file that is no part of a test stops the run, so that none is passed over."""
    topic = os.path.basename(folder)
    ends_of = {}
    for file in os.listdir(folder):
        end = next((end for end in ENDS if file.endswith(end)), None)
        if end is None:
            sys.exit("tests: %s/%s is no part of a test" % (topic, file))
        ends_of.setdefault(file[:-len(end)], set()).add(end)
    for stem, ends in sorted(ends_of.items()):
        name = "%s/%s" % (topic, stem)
        path = os.path.join(folder, stem)
        if ends == {".cases"}:
            yield from cases_in(path + ".cases", name)
        elif len(ends.intersection(INPUTS)) == 1:
            yield test_at(path, name, ends)
        else:
            sys.exit("tests: %s has no input, or two" % name)


def test_at(path, name, ends):
    test = Test(
        name,
        read(path + ".words", b"order").decode().split(),
        int(read(path + ".status", b"0")),
        read(path + ".out", b""),
        read(path + ".err", b""),
        read(path + ".sql", b""),
    )
    if ".make.py" in ends:
        test.make = path + ".make.py"
    test.source = read(path + ".from", b"").decode().strip()
    test.sink = read(path + ".to", b"").decode().strip()
    test.memory = read(path + ".memory", b"").decode().strip()
    return test


def all_tests():
    for topic in sorted(os.listdir(HERE)):
        folder = os.path.join(HERE, topic)
        if os.path.isdir(folder) and topic != "__pycache__":
            yield from tests_in(folder)


def built_program():
    place = os.path.join(HERE, "..", ".ci", "program")
    return subprocess.run(["bash", place], stdout=subprocess.PIPE, check=True, text=True).stdout.strip()


def main():
    parser = argparse.ArgumentParser(description="runs the tests of this folder")
    parser.add_argument("--program", help="the program; without this option the one that is built")
    parser.add_argument("--jobs", type=int, default=os.cpu_count(), help="how many run at once")
    parser.add_argument("--seconds", type=float, default=300, help="how long one may take")
    parser.add_argument("names", nargs="*", help="names of tests, or beginnings of names; without one all tests are run")
    given = parser.parse_args()
    program = [os.path.abspath(given.program or built_program())]
    tests = [test for test in all_tests() if not given.names or test.name.startswith(tuple(given.names))]
    tests.sort(key=lambda test: test.make is None)  # the long ones first
    passed = failed = 0
    with concurrent.futures.ThreadPoolExecutor(given.jobs) as pool:
        for test, wrong in zip(tests, pool.map(lambda test: test.run(program, given.seconds), tests)):
            if wrong:
                failed += 1
                print("failed: %s" % test.name)
                for line in wrong[:24]:
                    print("    " + line)
            else:
                passed += 1
    print("tests: %d passed, %d failed" % (passed, failed))
    return 1 if failed or not passed else 0


if __name__ == "__main__":
    sys.exit(main())
