"""Checks of what a person starts: ./list, ./save, tools/mklog and tools/candump2log, with right and wrong input. tests/all runs them.

What they must write was worked out by hand from docs/WIRE.md and 01's record, not taken from the tools."""
import os
import pathlib
import re
import shutil
import signal
import subprocess
import tempfile
import time

import images
import model

ROOT = pathlib.Path(__file__).resolve().parent.parent
TWO = (ROOT / "samples" / "two-records.log").read_bytes()
LISTED = (ROOT / "samples" / "two-records.out").read_text()
TRACE = (ROOT / "samples" / "trace.txt").read_bytes()
SHELF = (ROOT / "samples" / "shelf.log").read_bytes()
IMAGE = (ROOT / "samples" / "shelf.image").read_bytes()
IN_IMAGE = (ROOT / "samples" / "shelf-image.out").read_text()
NO_KEYS = bytes([2, 0])   # the image of a table without a usable key
NOTHING = "SRC DST MSG N JUDGED AT\nRECORDS 0 REFUSED 0 OTHER 0 LEFT 0\n"
WAIT = 60   # seconds, for what should end at once


def run(command, given="", out=subprocess.PIPE, **more):
    """Status, standard output and standard error of a shell command, started in the project's folder."""
    given = given if isinstance(given, bytes) else given.encode()
    done = subprocess.run(["sh", "-c", command], input=given, stdout=out, stderr=subprocess.PIPE, cwd=ROOT, timeout=WAIT, **more)
    return done.returncode, done.stdout or b"", done.stderr.decode()


def model_image(log):
    """What the model saves of a log."""
    box = model.Box()
    model.listing(log, box)
    return images.image_of(box)


def differ(found, wanted, what):
    return "" if found == wanted else "%s: %r, and not %r\n" % (what, found, wanted)


def row(command, given, status, wrote, said):
    """A check: the command's status and whole standard output; standard error has one line that begins with these words, or, for '', none."""
    def check():
        code, out, err = run(command, given)
        lines = err.splitlines()
        as_said = lines == [] if said == "" else len(lines) == 1 and lines[0].startswith(said)
        return differ(code, status, "status") + differ(out, wrote, "standard output") + ("" if as_said else "standard error: %r\n" % err)
    shown = given if isinstance(given, str) else repr(given)[2:-1]
    return "%s: %s" % (command, " | ".join(shown.split("\n")).replace("\r", "").strip(" |") or said), check


def makes(tool, given, records, said=""):
    return row("tools/" + tool, given, 0, bytes.fromhex(records), said and "candump2log: " + said)


def refuses(tool, given, said):
    return row("tools/" + tool, given, 1, b"", tool.split()[0] + ": " + said)


def lists(command, listing, said="", status=0, given=TWO):
    name, check = row(command, given, status, listing.encode(), said and "list: " + said)
    return command, check


def saves(command, image, said="", status=0, given=SHELF):
    name, check = row(command, given, status, image, said and "save: " + said)
    return command, check


DAMAGED = "the image is damaged, and nothing is listed"

TABLE = [
    # a Configuration Identification Message: identifier, length, PGN 45056 + 256 msg, SPN with the position, flags with n, start + 1
    makes("mklog", "cim src=38 dst=39 msg=1 n=2 pos=1 spn=1517 start=0", "26 27 B0 18 08 00 B1 00 ED 05 01 82 01"),
    makes("mklog", "cim src=255 dst=0 msg=15 n=31 pos=31 spn=524287 start=254 transport first standard priority=0", "FF 00 B0 00 08 00 BF 00 FF FF FF 7F FF"),
    makes("mklog", "frame 18FEE300 8 1 02 ff\n\n# nothing", "00 E3 FE 18 08 01 02 FF 00 00 00 00 00"),
    makes("mklog", "frame FFFFFFFF 255\nbytes 26 27", "FF FF FF FF FF 00 00 00 00 00 00 00 00 26 27"),
    makes("mklog", b"\xef\xbb\xbfbytes 0A\r\n", "0A"),
    refuses("mklog", "cim src=38 dst=39 msg=1 n=32 pos=1 spn=1517 start=0", "line 1: n 32 is not in 0 to 31"),
    refuses("mklog", "\ncim src=38 dst=39 msg=1 n=2 pos=33 spn=1517 start=0", "line 2: pos 33 is not in 0 to 31"),
    refuses("mklog", "cim src=300 dst=39 msg=1 n=2 pos=1 spn=1517 start=0", "line 1: src 300 is not in 0 to 255"),
    refuses("mklog", "cim src=38 dst=39 msg=1 n=2 pos=1 spn=524289 start=0", "line 1: spn 524289 is not in 0 to 524287"),
    refuses("mklog", "cim src=38 dst=39 msg=1 n=2 pos=1 spn=1517 start=-1", "line 1: start -1 is not in 0 to 254"),
    refuses("mklog", "cim src=38 dst=39 msg=1 n=2 pos=1 spn=1517", "line 1: start= is missing"),
    refuses("mklog", "cim src=38 src=38 dst=39", "line 1: src stands twice"),
    refuses("mklog", "cim src=38 dst=39 last", "line 1: last is unknown"),
    refuses("mklog", "frame 18FEE300 8 1 2 3 4 5 6 7 8 9", "line 1: 9 data bytes: a record has 8"),
    refuses("mklog", "frame 18FEE300 256", "line 1: length 256 is not in 0 to 255"),
    refuses("mklog", "frame 18FEE300 8 100", "line 1: byte 100 is not in hex, with 2 digits at most"),
    refuses("mklog", "frame 18FEE3001 8", "line 1: identifier 18FEE3001 is not in hex, with 8 digits at most"),
    refuses("mklog", "bytes 26\nframe 18FEE300 8", "line 2: a record after 1 bytes of a cut one"),
    refuses("mklog", "hello", "line 1: a line starts with cim, frame or bytes"),
    refuses("mklog no-such-file", "", "no-such-file: No such file or directory"),

    makes("candump2log", "(1.5) can0 18FEE300#0102030405060708\n", "00 E3 FE 18 08 01 02 03 04 05 06 07 08", "1 records; skipped: none"),
    makes("candump2log", "(1.5) can0 18FEE300#0102 R\r\n\r\n(1.5) can0 18FEE300# T\r\n", "00 E3 FE 18 02 01 02 00 00 00 00 00 00 00 E3 FE 18 00 00 00 00 00 00 00 00 00", "2 records; skipped: none"),
    makes("candump2log", b"\xef\xbb\xbf(1.5) can0 18fee300#01.02\n", "00 E3 FE 18 02 01 02 00 00 00 00 00 00", "1 records; skipped: none"),
    makes("candump2log", "\t(1.5)\tcan0\t18FEE300#01 02\n", "00 E3 FE 18 02 01 02 00 00 00 00 00 00", "1 records; skipped: none"),
    makes("candump2log", "(1.5) can0 18FEE300#0102030405060708_9\n", "00 E3 FE 18 08 01 02 03 04 05 06 07 08", "1 records; skipped: none"),
    makes("candump2log", "(1.5) can0 18FEE300#01", "00 E3 FE 18 01 01 00 00 00 00 00 00 00", "1 records; skipped: none; the last line has no end, so it may have been cut"),
    makes("candump2log", "(1.5) can0 98FEE300#01\n", "00 E3 FE 18 01 01 00 00 00 00 00 00 00", "1 records; skipped: none"),
    makes("candump2log", "  can0  18FEE300   [2]  01 02\n", "00 E3 FE 18 02 01 02 00 00 00 00 00 00", "1 records; skipped: none"),
    makes("candump2log", " (2024-11-15 08:17:32.249713)  can0  RX - -  18FEE300   [2]  01 02   '..'\n", "00 E3 FE 18 02 01 02 00 00 00 00 00 00", "1 records; skipped: none"),
    makes("candump2log", "(1.5) can0 123#01\n(1.5) can0 18FEE300#R\n(1.5) can0 18FEE300#R8\n(1.5) can0 18FEE300##101\n(1.5) can0 20000004#00\n", "",
        "0 records; skipped: 1 11-bit identifier, 1 CAN FD, 1 error frame, 2 remote frame"),
    makes("candump2log", "  can0       123   [1]  01\n  can0  18FEE300   [0]  remote request\n  can0  18FEE300  [01]  01\n  can0  20000004   [1]  00   ERRORFRAME\n\tbus-error\n", "",
        "0 records; skipped: 1 11-bit identifier, 1 CAN FD, 1 error frame, 1 note, 1 remote frame"),
    makes("candump2log --interface can1", "(1.5) can0 18FEE300#01\n(1.5) can1 18FEE300#02\n", "00 E3 FE 18 01 02 00 00 00 00 00 00 00", "1 records; skipped: 1 of another interface"),
    makes("candump2log", "(1.5) can0 18FEE300#01\n(1.5) can1 123#02\n", "00 E3 FE 18 01 01 00 00 00 00 00 00 00", "1 records; skipped: 1 11-bit identifier"),
    refuses("candump2log", "(1.5) can0 18FEE300#01\n(1.5) can1 18FEE300#02\n", "records of 2 interfaces, can0, can1: choose one with --interface NAME"),
    refuses("candump2log --interface can2", "(1.5) can0 18FEE300#01\n", "no line of can2: the trace has can0"),
    refuses("candump2log", "(1.5) can0 18FEE300#01\nhello\n", "line 2: no line of candump"),
    refuses("candump2log", "(1.5) can0 18FEE300#010\n", "line 1: no line of candump"),
    refuses("candump2log", "(1.5) can0 18FEE30#01\n", "line 1: no line of candump"),
    refuses("candump2log", "(1.5) 18FEE300#01\n", "line 1: no line of candump"),
    refuses("candump2log", "(1.5) can0 18FEE300#010203040506070809\n", "line 1: 9 data bytes: a frame has 8 at most"),
    refuses("candump2log", "(1.5) can0 18FEE300#01_9\n", "line 1: 1 data bytes are not the length that it says"),
    refuses("candump2log", "  can0  18FEE300   [2]  01\n", "line 1: 1 data bytes are not the length that it says"),
    refuses("candump2log", "  can0  18FEE300   [2]  02`01\n", "line 1: no line of candump"),
    refuses("candump2log", "\tbus-error\n", "line 1: no line of candump"),
    refuses("candump2log", TWO, "line 1: no line of candump"),
    refuses("candump2log no-such-file", "", "no-such-file: No such file or directory"),

    lists("./list", LISTED),
    lists("./list -", LISTED),
    lists("./list samples/two-records.log", LISTED),
    lists("./list < /dev/null", NOTHING),
    lists("./list <&-", "", "standard input is closed: name a file", 1),
    lists("./list ''", "", "the name of the log is empty: name a log", 1),
    lists("./list no-such-file", "", "there is no file no-such-file: name a log", 1),
    lists("./list samples", "", "samples is a folder: name a log file in it", 1),
    lists("./list a b", "", "too many words: ", 1),
    lists("./list < samples", NOTHING, "reading stopped, and only what came before is listed: Is a directory", 1),
    lists("./list > /dev/full", "", "the listing could not be written: No space left on device", 1),
    lists("./list >&-", "", "the listing could not be written: Bad file descriptor", 1),
    lists("TMPDIR=/no/such/folder ./list", "", "no temporary file could be made: set TMPDIR to ", 1),
    lists("./list samples/trace.txt", model.listing(TRACE), "this log looks like text, and a log is records of 13 bytes: tools/candump2log makes them "),
    lists("./list < samples/trace.txt", model.listing(TRACE), "this log looks like text, "),

    lists("./list --image", IN_IMAGE, given=IMAGE),
    lists("./list --image -", IN_IMAGE, given=IMAGE),
    lists("./list --image samples/shelf.image", IN_IMAGE),
    lists("./list --image samples/shelf-form-1.image", IN_IMAGE),
    lists("printf '\\001\\000' | ./list --image", NOTHING),
    lists("printf '\\003\\000' | ./list --image", "", DAMAGED, 1),
    lists("./save samples/shelf.log | ./list --image", IN_IMAGE),
    lists("./save < /dev/null | ./list --image", NOTHING),
    lists("head -c 32 samples/shelf.image | ./list --image", "", DAMAGED, 1),
    lists("head -c 30 samples/shelf-form-1.image | ./list --image", "", DAMAGED, 1),
    lists("(cat samples/shelf.image; sleep 0.3; echo) | ./list --image", "", DAMAGED, 1),
    lists("(cat samples/shelf.image; sleep 0.3; head -c 100000 /dev/zero) | ./list --image", "", DAMAGED, 1),
    lists("./list --image < /dev/null", "", DAMAGED, 1),
    lists("./list --image samples/shelf.log", "", DAMAGED, 1),
    lists("./list --image samples/trace.txt", "", DAMAGED, 1),
    lists("./list --image <&-", "", "standard input is closed: name a file, as in ./list --image ", 1),
    lists("./list --image ''", "", "the name of the image is empty: name an image", 1),
    lists("./list --image no-such-file", "", "there is no file no-such-file: name an image", 1),
    lists("./list --image samples", "", "samples is a folder: name an image file in it", 1),
    lists("./list --image a b", "", "too many words: ./list --image IMAGE ", 1),
    lists("./list --image < samples", "", "reading stopped, and nothing is listed: Is a directory", 1),
    lists("./list --image samples/shelf.image > /dev/full", "", "the listing could not be written: No space left on device", 1),

    saves("./save", IMAGE),
    saves("./save -", IMAGE),
    saves("./save samples/shelf.log", IMAGE),
    saves("./save < /dev/null", NO_KEYS),
    saves("./save samples/trace.txt", NO_KEYS, "this log looks like text, and a log is records of 13 bytes: tools/candump2log makes them "),
    saves("./save <&-", b"", "standard input is closed: name a file", 1),
    saves("./save ''", b"", "the name of the log is empty: name a log", 1),
    saves("./save no-such-file", b"", "there is no file no-such-file: name a log", 1),
    saves("./save samples", b"", "samples is a folder: name a log file in it", 1),
    saves("./save a b", b"", "too many words: ", 1),
    saves("./save < samples", b"", "reading stopped, and nothing is saved: Is a directory", 1),
    saves("./save > /dev/full", b"", "the image could not be written: No space left on device", 1),
    saves("./save >&-", b"", "the image could not be written: Bad file descriptor", 1),
]


# ---- what takes more than a row

def closed_pipe(command, status):
    """Standard output is a pipe that nobody reads."""
    def check():
        reader, writer = os.pipe()
        os.close(reader)
        code, out, err = run("exec " + command, out=writer)
        os.close(writer)
        return differ(code, status[0], "status") + differ(err, status[1], "standard error")
    return command + " into a closed pipe", check


def help_of(command):
    def check():
        code, out, err = run(command)
        return differ((code, err), (0, ""), "status and standard error") + ("" if len(out.splitlines()) > 4 else "no help: %r\n" % out)
    return command, check


def not_blocking(command, given, wanted):
    """What is read comes in pieces through a pipe that is non-blocking for its reader."""
    reader, writer = os.pipe()
    os.set_blocking(reader, False)
    child = subprocess.Popen(command.split(), stdin=reader, stdout=subprocess.PIPE, stderr=subprocess.PIPE, cwd=ROOT)
    os.close(reader)
    for at in range(0, len(given), 10):
        time.sleep(0.3)
        os.write(writer, given[at:at + 10])
    time.sleep(0.3)
    os.close(writer)
    out, err = child.communicate(timeout=WAIT)
    return differ((child.returncode, out, err), (0, wanted, b""), "status and what was written")


def of_process(pid, file):
    """What the system says of a process; nothing where it has ended."""
    try:
        return pathlib.Path("/proc", str(pid), file).read_text()
    except (FileNotFoundError, ProcessLookupError):
        return ""


def program_of(child):
    """The process of the program, once the script has started it: its words are its file and a dash (tools/program.sh)."""
    for _ in range(100 * WAIT):
        for pid in of_process(child.pid, "task/%d/children" % child.pid).split():
            if re.search(r"/crates/\w+/out/\w+\0-", of_process(pid, "cmdline")):
                return int(pid)
        time.sleep(0.01)
    raise TimeoutError("the program was not started")


def is_running(pid):
    """Whether a process still runs after a second: one that has ended takes a moment to go, an emulator longer than the program itself."""
    for _ in range(100):
        if of_process(pid, "stat").rpartition(") ")[2][:1] in ("", "X", "Z"):
            return False
        time.sleep(0.01)
    return True


def stopped(number, which, command="./list"):
    """The script or the program gets a signal while the input is waited for."""
    reader, writer = os.pipe()
    # a shell starts what runs in its background with SIGINT ignored, and a script cannot take that back
    child = subprocess.Popen(command.split(), stdin=reader, stdout=subprocess.PIPE, stderr=subprocess.PIPE, cwd=ROOT, preexec_fn=lambda: signal.signal(signal.SIGINT, signal.SIG_DFL))
    os.close(reader)
    program = program_of(child)
    os.kill(child.pid if which == "script" else program, number)
    out, err = child.communicate(timeout=WAIT)
    os.close(writer)
    if which == "script":
        return differ((child.returncode, out, err, is_running(program)), (-number, b"", b"", False), "status, what was written, and whether the program runs on")
    said = b"%s: the program was stopped by signal %d before it was done\n" % (command.split()[0][2:].encode(), number)
    return differ((child.returncode, out), (1, b""), "status and standard output") + ("" if err.endswith(said) else "standard error: %r\n" % err)


# Stand-ins for rt, as it is started in the folder of the program list: what it says goes to standard error, and what the program writes to standard output.
PROVES = """#!/bin/sh
[ "$*" = run ] && [ "${PWD##*/crates/}" = list ] || exit 2
exec >&2
echo 'rt: chose --jobs 2 for answers'
echo 'fn answers::number: proved'
echo 'crate answers: modules loaded=0 checked=40'
echo 'logic=proved functions=1 statements=trusted'
echo 'rt: chose --jobs 2 for list'
echo 'library answers: modules loaded=25 checked=0'
echo 'crate list: modules loaded=0 checked=97'
echo 'logic=proved functions=7 axioms=8 statements=trusted'
mkdir -p out && cp "$RATTLE_HOME/program" out/list
echo 'rt: running out/list; to give it other input, run that file yourself'
"""
REFUSES = """#!/bin/sh
echo 'fn answers::number: not proved' >&2
echo 'rt: the library answers did not build, so nothing above it was checked' >&2
exit 1
"""


def most_memory(pid):
    """The most memory that a process had so far, in KB."""
    return next(int(line.split()[1]) for line in of_process(pid, "status").splitlines() if line.startswith("VmHWM"))


def in_pieces(command, first, piece, count, wanted):
    """What is wrong where a program is given so many pieces, `first` in place of the first, and must write this: or '', and a line about it. No more memory is taken than after the first piece."""
    began = time.monotonic()
    child = subprocess.Popen([command], stdin=subprocess.PIPE, stdout=subprocess.PIPE, stderr=subprocess.PIPE, cwd=ROOT)
    program = program_of(child)
    child.stdin.write(first)
    child.stdin.flush()
    time.sleep(0.2)
    before = most_memory(program)
    for _ in range(count - 1):
        child.stdin.write(piece)
    child.stdin.flush()
    most = most_memory(program)
    child.stdin.close()
    child.stdin = None
    out, err = child.communicate()
    took = time.monotonic() - began
    wrong = differ((child.returncode, out, err), (0, wanted.encode(), b""), "status and what was written")
    if most > before + 128:
        wrong += "%d KB after the first piece, and %d KB at the end\n" % (before, most)
    return wrong, "%.1f s, %d KB of memory at the most, %d KB after the first piece" % (took, most, before)


def on_a_fresh_copy(rt, built, status, wrote, said, script="list", prints="listed", option=""):
    """A script in a copy that has nothing built, with a stand-in for rt; standard error must be these lines, {} being the copy."""
    with tempfile.TemporaryDirectory() as folder:
        copy, kit = pathlib.Path(folder, "copy").resolve(), pathlib.Path(folder, "kit")
        for program in ("list", "keep", "shelves", "hired", "replay"):
            (copy / "crates" / program).mkdir(parents=True)
        (kit / "bin").mkdir(parents=True)
        (copy / "tools").mkdir()
        (copy / "docs").mkdir()
        shutil.copy(ROOT / script, copy)
        for name in ("tools/program.sh", "tools/shelf.sh", "tools/shelf.py", "tools/hire.py", "docs/UNITS.md"):
            shutil.copy(ROOT / name, copy / name)
        (copy / "crates.txt").write_text("answers:\nother: answers\nlist: answers io   # a program\nkeep: answers io\nshelves: answers io\nhired: answers io\nreplay: answers io\n")
        (kit / "bin" / "rt").write_text(rt)
        (kit / "bin" / "rt").chmod(0o755)
        (kit / "program").write_text(f"#!/bin/sh\necho {prints}\n")
        (kit / "program").chmod(0o755)
        emulator = kit / "on" / os.uname().machine / "toolchain" / "bin" / "qemu-x86_64"   # where this machine is not x86-64: it starts the program behind the loader's words
        emulator.parent.mkdir(parents=True)
        emulator.write_text("#!/bin/sh\nshift 3\nexec \"$@\"\n")
        emulator.chmod(0o755)
        if built == "a file":
            (copy / "crates" / "list" / "out").write_text("")
        code, out, err = run("'%s/%s' %s" % (copy, script, option), TWO, env={**os.environ, "RATTLE_HOME": str(kit)})
        again = run("'%s/%s' %s" % (copy, script, option), TWO, env={**os.environ, "RATTLE_HOME": str(kit)})[1:] if status == 0 else (wrote, "")
    return differ((code, out), (status, wrote), "status and standard output") + differ(err, said.replace("{}", str(copy)), "standard error") + differ(again, (wrote, ""), "once more")


CHECKS = TABLE + [
    help_of("./list --help"),
    help_of("./save --help"),
    help_of("tools/mklog --help"),
    help_of("tools/candump2log --help"),
    closed_pipe("./list samples/two-records.log", (1, "list: the listing could not be written: its reader is gone\n")),
    closed_pipe("./list --image samples/shelf.image", (1, "list: the listing could not be written: its reader is gone\n")),
    closed_pipe("./save samples/shelf.log", (1, "save: the image could not be written: its reader is gone\n")),
    closed_pipe("tools/mklog samples/two-records.txt", (-signal.SIGPIPE, "")),
    closed_pipe("tools/candump2log samples/trace.txt", (-signal.SIGPIPE, "")),
    ("./list from non-blocking standard input", lambda: not_blocking("./list", TWO, LISTED.encode())),
    ("./list --image from non-blocking standard input", lambda: not_blocking("./list --image", IMAGE, IN_IMAGE.encode())),
    ("./save from non-blocking standard input", lambda: not_blocking("./save", TWO, model_image(TWO))),
    ("./list, and SIGTERM to the script", lambda: stopped(signal.SIGTERM, "script")),
    ("./list, and SIGINT to the script", lambda: stopped(signal.SIGINT, "script")),
    ("./list, and SIGKILL to the program", lambda: stopped(signal.SIGKILL, "program")),
    ("./list --image, and SIGTERM to the script", lambda: stopped(signal.SIGTERM, "script", "./list --image")),
    ("./save, and SIGINT to the script", lambda: stopped(signal.SIGINT, "script", "./save")),
    ("./save, and SIGKILL to the program", lambda: stopped(signal.SIGKILL, "program", "./save")),
    ("./list on a fresh copy, a stand-in for rt proves it", lambda: on_a_fresh_copy(PROVES, "", 0, b"listed\n",
        "list: proving and building the program first, 2 crates; that takes some minutes\nlist: answers is proved, 1 left\nlist: list is proved, 0 left\n")),
    ("./save on a fresh copy, a stand-in for rt proves it", lambda: on_a_fresh_copy(PROVES.replace("list", "keep"), "", 0, b"listed\n",
        "save: proving and building the program first, 2 crates; that takes some minutes\nsave: answers is proved, 1 left\nsave: keep is proved, 0 left\n", "save")),
    ("./list on a fresh copy, a stand-in for rt refuses it", lambda: on_a_fresh_copy(REFUSES, "", 1, b"",
        "list: proving and building the program first, 2 crates; that takes some minutes\nfn answers::number: not proved\n"
        "rt: the library answers did not build, so nothing above it was checked\nlist: the program could not be built: rt run, in {}/crates/list, says why\n")),
    ("./list on a copy that cannot be written", lambda: on_a_fresh_copy(PROVES, "a file", 1, b"",
        "list: the program has to be built first, and {}/crates/list/out cannot be written: copy this folder to a place where you may write, and use the list in there\n")),
]
