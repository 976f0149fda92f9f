"""Runs at fault and runs on devices that fail, with what docs/FORMATS.md says of them, for tools/gate/check_program."""
import os
import socket
import struct
import subprocess
import threading

ZEROS = b"lookups 0 hits 0 misses 0 loads 0 failed 0 evicted 0 entries 0 weight 0\n"
TWO = b"0 P 1\n0 L 1\n"
TWO_REPORT = b"1 put\n2 hit 1\n"
TWO_SUMMARY = b"lookups 1 hits 1 misses 0 loads 0 failed 0 evicted 0 entries 1 weight 1\n"
MANY = b"0 L 1\n" * 1_000_000
MANY_REPORT = b"".join(b"%d absent\n" % n for n in range(1, 1_000_001))
THOUSAND_REPORT = MANY_REPORT[:MANY_REPORT.index(b"1001 ")]
MANY_SUMMARY = b"lookups 1000000 hits 0 misses 1000000 loads 0 failed 0 evicted 0 entries 0 weight 0\n"

# Title, options, input, status, standard output, standard error.
RUNS = [
    ("an empty trace", "", b"", 0, ZEROS, b""),
    ("a trace of a header alone", "", b"wt 2", 0, ZEROS, b""),
    ("a last line without LF", "", b"0 P 1\n0 L 1", 0, TWO_REPORT + TWO_SUMMARY, b""),
    ("a bad line", "", TWO + b"0 Q 1\n" + TWO, 1, TWO_REPORT, b"fault 11 line 3\n"),
    ("a bad line behind 1,000 others", "", MANY[:6000] + b"0 Q 1\n", 1, THOUSAND_REPORT, b"fault 11 line 1001\n"),
    ("a bad line behind 1,000 others, on two threads", "--shards 2 --threads 2", MANY[:6000] + b"0 Q 1\n", 1, THOUSAND_REPORT,
     b"fault 11 line 1001\n"),
    ("a header in the second line", "", b"0 L 1\nwt 2\n", 1, b"1 absent\n", b"fault 11 line 2\n"),
    ("a line of 64 bytes", "", TWO + b"1" * 64, 1, TWO_REPORT, b"fault 11 line 3\n"),
    ("a line of 65 bytes", "", TWO + b"1" * 65 + b"\n0 Q 1\n", 1, TWO_REPORT, b"fault 12 line 3\n"),
    ("a name of 24 bytes", "", b"wt 2\n0 L " + b"x" * 24 + b"\n", 0, b"2 absent\n" + ZEROS.replace(b"ups 0", b"ups 1").replace(b"sses 0", b"sses 1"), b""),
    ("a name of 25 bytes", "", b"wt 2\n0 L " + b"x" * 25 + b"\n", 1, b"", b"fault 11 line 2\n"),
    ("a name with a colon", "", b"wt 2\n0 L a:b\n", 1, b"", b"fault 11 line 2\n"),
    ("1,000,000 lines", "", MANY, 0, MANY_REPORT + MANY_SUMMARY, b""),
    ("1,000,000 lines on two threads", "--shards 2 --threads 2", MANY, 0, MANY_REPORT + MANY_SUMMARY, b""),
    ("1,000,001 lines", "", MANY + b"0 L 1\n", 1, MANY_REPORT, b"fault 13\n"),
    ("1,000,001 lines, the last too long", "", MANY + b"1" * 65, 1, MANY_REPORT, b"fault 13\n"),
    ("1,000,001 lines with the header", "", b"wt 2\n" + MANY, 1, MANY_REPORT[len(b"1 absent\n"):], b"fault 13\n"),
    ("the first option at fault is told", "--flights 0 --window 9 --entries 4", TWO, 1, b"", b"fault 2 field window\n"),
    ("an option before a bad line", "--entries 0", b"bad\n", 1, b"", b"fault 2 field entries\n"),
    ("a due hit at the limit of loads", "--entries 4 --window 1 --flights 1 --refresh 5", b"0 S 2\n0 P 1\n9 S 1\n", 0,
     b"1 lead 1\n2 put\n3 hit 2\nlookups 2 hits 1 misses 1 loads 0 failed 0 evicted 0 entries 1 weight 1\n", b""),
]
# Command lines that are refused: status 2, nothing on standard output, something on standard error.
REFUSED = ("--entries", "--entries x", "--entries -1", "--entries 18446744073709551616", "--entries 4.0", "--no-such 1", "stray",
           "--entries 4 --entries 5")


def run(program, words, given, **streams):
    done = subprocess.run([str(program), *words.split()], input=given, stdout=streams.get("stdout", subprocess.PIPE),
                          stderr=subprocess.PIPE, timeout=60)
    return done.returncode, done.stdout or b"", done.stderr


def refused_line(program, words):
    status, out, err = run(program, words, b"")
    return status == 2 and out == b"" and err != b""


def help_is_told(program):
    status, out, err = run(program, "--help", b"bad\n")
    return status == 0 and b"--entries" in out and err == b""


def full_output(program, given):
    with open("/dev/full", "wb") as full:
        return run(program, "", given, stdout=full) == (1, b"", b"fault 15\n")


def closed_output(program):
    """Standard output is a pipe that nobody reads any more."""
    reader, writer = os.pipe()
    os.close(reader)
    try:
        with os.fdopen(writer, "wb") as output:
            return run(program, "", TWO, stdout=output) == (1, b"", b"fault 15\n")
    except BrokenPipeError:
        return False


def missing_output(program):
    """Standard output is no open file at all."""
    done = subprocess.run(["sh", "-c", '"$0" >&-', str(program)], input=TWO, capture_output=True, timeout=60)
    return (done.returncode, done.stderr) == (1, b"fault 15\n")


def read_fails(program, words=(), told=b"fault 14\n"):
    """Standard input is a folder, which can't be read."""
    folder = os.open("/", os.O_RDONLY)
    try:
        done = subprocess.run([str(program), *words], stdin=folder, capture_output=True, timeout=60)
    finally:
        os.close(folder)
    return (done.returncode, done.stdout, done.stderr) == (1, b"", told)


def read_fails_midway(program):
    """Standard input gives two good lines, and then the other side of it is torn down."""
    with socket.socket() as listener:
        listener.bind(("127.0.0.1", 0))
        listener.listen(1)
        ours = socket.create_connection(listener.getsockname())
        theirs, _ = listener.accept()
        ours.sendall(TWO)
        child = subprocess.Popen([str(program)], stdin=theirs.fileno(), stdout=subprocess.PIPE, stderr=subprocess.PIPE)
        try:
            threading.Event().wait(0.5)
            ours.setsockopt(socket.SOL_SOCKET, socket.SO_LINGER, struct.pack("ii", 1, 0))
            ours.close()
            out, err = child.communicate(timeout=60)
        finally:
            child.kill()
            theirs.close()
    return (child.returncode, out, err) == (1, b"", b"fault 14\n")


def slow_input(program):
    """Standard input comes byte by byte."""
    child = subprocess.Popen([str(program)], stdin=subprocess.PIPE, stdout=subprocess.PIPE, stderr=subprocess.PIPE, bufsize=0)
    try:
        for at in range(len(TWO)):
            child.stdin.write(TWO[at:at + 1])
            threading.Event().wait(0.005)
        out, err = child.communicate(timeout=60)
    finally:
        child.kill()
    return (child.returncode, out, err) == (0, TWO_REPORT + TWO_SUMMARY, b"")


def check_all(program, check):
    """Makes all of these runs."""
    outcomes = [(title, run(program, words, given) == (status, out, err)) for title, words, given, status, out, err in RUNS]
    outcomes += [("refused: %s" % words, refused_line(program, words)) for words in REFUSED]
    outcomes += [
        ("help is told, and the trace not read", help_is_told(program)),
        ("a full device", full_output(program, TWO)),
        ("a full device and a bad line", full_output(program, TWO + b"bad\n")),
        ("a pipe that nobody reads", closed_output(program)),
        ("no standard output", missing_output(program)),
        ("input that can't be read", read_fails(program)),
        ("an option at fault before input that can't be read", read_fails(program, ("--entries", "0"), b"fault 2 field entries\n")),
        ("input that fails midway", read_fails_midway(program)),
        ("input byte by byte", slow_input(program)),
    ]
    for title, well in outcomes:
        check(title, well)
