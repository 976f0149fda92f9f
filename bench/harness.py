"""What the benchmarks share."""
import argparse
import os
import pathlib
import platform
import re
import shutil
import statistics
import subprocess
import sys

ROOT = pathlib.Path(__file__).resolve().parent.parent
sys.path.insert(0, str(ROOT / "tools" / "lib"))

import trees  # noqa: E402
import words  # noqa: E402
from kit import unproved as without_proof  # noqa: E402

# The peers are packages of Debian.
JARS = ["/usr/share/java/caffeine.jar", "/usr/share/java/guava.jar"]
DEBIAN_CRATES = pathlib.Path("/usr/share/cargo/registry")
DEBIAN_GO = pathlib.Path("/usr/share/gocode/src/github.com")


def parser(doc):
    """A parser named by the program's path: answers --help with the text, and refuses words that it doesn't know."""
    return words.Parser(doc, str(pathlib.Path(sys.argv[0]).resolve().relative_to(ROOT)))


class Given(argparse.Namespace):
    """What a runner was given: how it builds, and whether it only shows that it works."""

    def calls(self, number, least=1):
        """So many calls; with --smoke one in a thousand of them."""
        return max(number // 1000, least) if self.smoke else number

    def turns(self, number):
        return 1 if self.smoke else number


def arguments(doc, **options):
    """Reads what each runner takes, and options of its own, each with what argparse wants to know of it."""
    reader = parser(doc)
    reader.add_argument("--unproved", action="store_true", help="build without any proof, in minutes: nothing of it is proved or checked")
    reader.add_argument("--smoke", action="store_true", help="build without any proof and make few calls, to see that the runner works: no figures")
    for name, about in options.items():
        reader.add_argument("--" + name, **about)
    given = reader.parse_args(namespace=Given())
    given.unproved = given.unproved or given.smoke
    print(machine(), flush=True)
    if given.unproved:
        print("built without any proof: nothing of it is proved or checked\n", flush=True)
    return given


def machine():
    """The kernel, the processor, and the versions of what runs or builds the peers."""
    processor = re.search(r"^model name\s*: (.*)$", pathlib.Path("/proc/cpuinfo").read_text(), re.M)
    parts = ["%s %s %s" % (platform.system(), platform.release(), platform.machine()), "%d x %s" % (os.cpu_count(), processor.group(1) if processor else "?")]
    for command, what in (("java -version", r'\S+ version "[^"]*"'), ("go version", r"go\d\S*"), ("rustc --version", r"rustc \S+"), ("python3 --version", r"Python \S+")):
        if shutil.which(command.split()[0]):
            done = subprocess.run(command.split(), capture_output=True, text=True)
            parts += re.findall(what, done.stdout + done.stderr)[:1]
    return ", ".join(parts)


def spread(numbers, form=".1f"):
    """The median of some numbers, with the quartiles if there are several."""
    if len(numbers) == 1:
        return format(numbers[0], form)
    lower, middle, upper = (format(number, form) for number in statistics.quantiles(numbers, n=4, method="inclusive"))
    return "%s (%s to %s)" % (middle, lower, upper)


def load():
    """The load of the machine over the last minute."""
    return "%.1f" % os.getloadavg()[0]


def unpack(source, target):
    """Copies a harness. Its files end in .txt here, since the gate reads every .rt and .antt file of the repository."""
    for file in source.rglob("*.txt"):
        place = target / file.relative_to(source).with_suffix("")
        place.parent.mkdir(parents=True, exist_ok=True)
        shutil.copy(file, place)


def wants(*commands):
    """Ends the runner with a sentence if one of these commands isn't there."""
    for command in commands:
        if not shutil.which(command):
            raise SystemExit("%s: it needs the command %s" % (pathlib.Path(sys.argv[0]).resolve().relative_to(ROOT), command))


def program(given):
    """The program wt_replay: proved, or built without any proof."""
    wants("rt")
    if given.unproved:
        told = subprocess.run([sys.executable, ROOT / "tools" / "lib" / "kept_program.py"], check=True, stdout=subprocess.PIPE, text=True)
        return pathlib.Path(told.stdout.strip())
    subprocess.run(["sh", ROOT / "tools" / "replay", "--build"], check=True)
    return ROOT / "crates" / "wt_replay" / "out" / "wt_replay"


def library(given):
    """The folder with the library for C, proved or not, which is built first if it isn't there."""
    if "ROOKDRESSER_LIB" in os.environ:
        return pathlib.Path(os.environ["ROOKDRESSER_LIB"]).resolve()
    folder = ROOT / "out" / ("embed-unproved" if given.unproved else "embed")
    if not (folder / "librookdresser.a").exists():
        wants("rt")
        subprocess.run(["sh", ROOT / "tools" / "embed", *(["--unproved"] if given.unproved else [])], check=True, stdout=subprocess.DEVNULL)
    return folder


def peak_bytes(program, *words):
    """The most memory that a run of the program held."""
    child = os.posix_spawn(program, [program, *words], os.environ, file_actions=[(os.POSIX_SPAWN_OPEN, 1, os.devnull, os.O_WRONLY, 0)])
    _, status, usage = os.wait4(child, 0)
    assert status == 0, status
    return usage.ru_maxrss * 1024


def build(folder, harness, name, deps, *words, unproved=False, edits=()):
    """The program of a harness, which stands on these crates, proved and built in the folder, and run once with these words.

    A crate comes with its out/, so that what is proved of it isn't proved again. Built it is as every proved program is: by LLVM, at -O3.
    Each edit is a file of the repository, a line in it and what stands in that line's place here.
    """
    wants("rt")
    crates = folder / "crates"
    trees.copy_crates(folder, deps.split(), f"{name}: {deps}", built=not unproved)
    unpack(harness, crates / name)
    for file, old, new in edits:
        text = (folder / file).read_text()
        assert text.count(old) == 1, (file, old)
        (folder / file).write_text(text.replace(old, new))
    if unproved:
        program = folder / name
        without_proof.build_program(program, crates / name)
        return program
    made = subprocess.run(["rt", "run", "--", *words], cwd=crates / name, capture_output=True, text=True)
    if made.returncode != 0:
        raise SystemExit(made.stdout + made.stderr)
    return crates / name / "out" / name


def build_java(folder, source):
    """The command of a Java class on Caffeine and Guava, or none if they or a JDK aren't there."""
    if not shutil.which("javac") or not all(pathlib.Path(jar).exists() for jar in JARS):
        return None
    subprocess.run(["javac", "-cp", ":".join(JARS), "-sourcepath", ROOT / "bench", "-d", folder, source], check=True, capture_output=True)
    return ["java", "-cp", ":".join([str(folder), *JARS]), source.stem]


def build_go(folder, source):
    """The command of a Go program on golang-lru and ristretto, or none if they or Go aren't there."""
    if not shutil.which("go") or not (DEBIAN_GO / "hashicorp/golang-lru").exists() or not (DEBIAN_GO / "dgraph-io/ristretto").exists():
        return None
    env = {"GO111MODULE": "off", "GOPATH": "/usr/share/gocode", "HOME": str(folder), "PATH": "/usr/bin:/bin"}
    subprocess.run(["go", "build", "-o", folder / source.stem, source], check=True, capture_output=True, env=env)
    return [folder / source.stem]


def build_rust(folder, source):
    """The command of a Rust program on the lru crate, or none if it or cargo isn't there."""
    if not shutil.which("cargo") or not list(DEBIAN_CRATES.glob("lru-*")):
        return None
    made = folder / "lru_crate"
    (made / "src").mkdir(parents=True)
    (made / ".cargo").mkdir()
    shutil.copy(source, made / "src" / "main.rs")
    (made / "Cargo.toml").write_text('[package]\nname = "lru_crate"\nversion = "0.1.0"\nedition = "2021"\n[dependencies]\nlru = "*"\n')
    (made / ".cargo" / "config.toml").write_text(
        '[source.crates-io]\nreplace-with = "debian"\n[source.debian]\ndirectory = "%s"\n' % DEBIAN_CRATES)
    subprocess.run(["cargo", "build", "--release", "--offline", "-q"], cwd=made, check=True, capture_output=True)
    return [made / "target" / "release" / "lru_crate"]


def hits_of(output):
    """The hits that a program of peers tells, or wt_replay, in its last line."""
    words = output.rstrip("\n").rpartition("\n")[2].split()
    return int(words[words.index("hits") + 1])


def built(name, build, folder, source):
    """The command of a peer, or none and a line that says why."""
    try:
        command = build(folder, source)
    except subprocess.CalledProcessError as fault:
        print("skipped %s: it can't be built: %s" % (name, fault.stderr.decode().strip().split("\n")[-1][:200]))
        return None
    if command is None:
        print("skipped %s: its Debian packages aren't there" % name)
    return command
