"""The archive and the Debian package: byte for byte the same when they are made twice, with the right SHA-256 sums. The
program runs where they are unpacked or installed into an empty root, and nothing is left once the package is removed.
Completions for bash offer what the help names; zsh and fish read theirs, where installed. At a terminal of its own each
of these shells completes names with blanks, folders, and the file of an option behind its `=`.
"""
import hashlib
import os
import pty
import select
import shutil
import subprocess
import sys
import tempfile
import time

from program import OMEGA, ROOT, Cases, Fault

PACKAGE = os.path.join(ROOT, "make", "package.py")
GAME = b"0 1 0 1; 1 2 1 0;"
SOLVED = b"paritysol 1;\n0 0 1;\n1 0;\n"
COMPLETIONS = "share/bash-completion/completions/omega"
# What bash offers after these words.
OFFERED = [
    (["omega", "so"], "solve"),
    (["omega", "check", "--format", ""], "aiger hoa pg"),
    (["omega", "solve", "--pl"], "--player"),
    (["omega", "solve", "--player", ""], "0 1"),
    (["omega", "help", "em"], "empty"),
    (["omega", "satisfies", "--fo"], "--formula"),
    (["omega", "satisfies", "-f", ""], ""),
    (["omega", "verify", "--co"], "--counter-strategy"),
    (["omega", "solve", "--player", "="], "0 1"),
    (["omega", "check", "--format", "=", "h"], "hoa"),
]
# The files that completions are tried among, and the words that a line comes to whose tabs are answered.
FILES = ["many/g 0.pg", "many/deep/one.pg", "g5.pg", "solve/two.pg"]
TYPED = [
    ("omega solve many/g\t", ["solve", "many/g 0.pg"]),
    ('omega solve "many/g\t', ["solve", "many/g 0.pg"]),
    ("omega solve man\tg\t", ["solve", "many/g 0.pg"]),
    ("omega solve many/d\to\t", ["solve", "many/deep/one.pg"]),
    ("omega so\t g5\t", ["solve", "g5.pg"]),
    ("omega verify --game=g\t", ["verify", "--game=g5.pg"]),
    ("omega verify --game g\t", ["verify", "--game", "g5.pg"]),
    ("omega verify --counter\t g5\t", ["verify", "--counter-strategy", "g5.pg"]),
    ("omega -v so\t g5\t", ["-v", "solve", "g5.pg"]),
    ("omega --verbose verify --game=g\t", ["--verbose", "verify", "--game=g5.pg"]),
]
# What fish offers for a line, without descriptions.
OFFERED_BY_FISH = [
    ("omega so", ["solve"]),
    ("omega solve many/g", ["many/g 0.pg"]),
    ("omega solve man", ["many/"]),
    ("omega verify --game=g", ["--game=g5.pg"]),
    ("omega -v so", ["solve"]),
]
# What a shell runs in place of the program: it writes its words, each between brackets.
SHOWING = "omega() { printf '[%s]' \"$@\"; echo '<end>'; }; echo rea''dy"


def made_in(folder: str) -> list[str]:
    """Packs the program into a folder. The names of the files."""
    subprocess.run([sys.executable, PACKAGE, "dist", "--program", OMEGA, "--into", folder], check=True,
                   stdout=subprocess.DEVNULL, stderr=subprocess.DEVNULL)
    return sorted(os.listdir(folder))


def bytes_of(*path: str) -> bytes:
    with open(os.path.join(*path), "rb") as file:
        return file.read()


def sums_fault(folder: str, sums: str = "SHA256SUMS") -> Fault:
    """What a file of sums says of the files beside it."""
    for line in bytes_of(folder, sums).decode().splitlines():
        wanted, name = line.split()
        if hashlib.sha256(bytes_of(folder, name)).hexdigest() != wanted:
            return f"the sum of {name} is another"
    return None


def run_fault(program: str) -> Fault:
    """What is wrong with an installed program, which solves a game."""
    run = subprocess.run([program, "solve"], input=GAME, capture_output=True, timeout=60)
    return None if (run.returncode, run.stdout) == (0, SOLVED) else f"status {run.returncode}: {run.stdout!r}"


def prefix_fault(prefix: str) -> Fault:
    """What is wrong below a prefix: the program, its manual and its completions."""
    if bytes_of(prefix, "bin", "omega") != bytes_of(OMEGA):
        return "it is another program"
    for path in (COMPLETIONS, "share/zsh/site-functions/_omega", "share/fish/vendor_completions.d/omega.fish"):
        if b"omega" not in bytes_of(prefix, path):
            return f"{path} is empty"
    return run_fault(os.path.join(prefix, "bin", "omega"))


def archive_fault(file: str, room: str) -> Fault:
    subprocess.run(["tar", "-xzf", file, "-C", room], check=True)
    (top,) = os.listdir(room)
    folder = os.path.join(room, top)
    wanted = bytes_of(ROOT, "docs", "omega.1")
    if bytes_of(folder, "share", "man", "man1", "omega.1") != wanted:
        return "its manual is another"
    if not {"LICENSE", "README"} <= set(os.listdir(folder)):
        return "it has no licence or no README"
    return prefix_fault(folder)


def debian_fault(file: str, room: str) -> Fault:
    """Installs the package into an empty root, runs the program there, and removes it again."""
    for folder in ("info", "updates", "triggers"):
        os.makedirs(os.path.join(room, "var/lib/dpkg", folder))
    for name in ("status", "available"):
        open(os.path.join(room, "var/lib/dpkg", name), "wb").close()
    words = ["dpkg", f"--root={room}", "--force-depends", "--force-not-root", "--force-bad-path"]
    done = subprocess.run([*words, "--install", file], capture_output=True)
    if done.returncode:
        return f"dpkg did not install it: {done.stderr[-300:]!r}"
    fault = prefix_fault(os.path.join(room, "usr"))
    done = subprocess.run([*words, "--purge", "omega"], capture_output=True)
    if done.returncode:
        return fault or f"dpkg did not remove it: {done.stderr[-300:]!r}"
    left = [name for _, _, names in os.walk(os.path.join(room, "usr")) for name in names]
    return fault or (f"it leaves {left}" if left else None)


def offered_fault(script: str, words: list[str], wanted: str) -> Fault:
    """What bash offers after words, by the completions."""
    listed = " ".join(f"'{word}'" for word in words)
    lines = f"source '{script}'; COMP_WORDS=({listed}); COMP_CWORD={len(words) - 1}; _omega; echo ${{COMPREPLY[@]}}"
    run = subprocess.run(["bash", "--norc", "-c", lines], capture_output=True, text=True)
    came = " ".join(sorted(run.stdout.split()))
    return None if came == wanted else f"{came!r} for {wanted!r}: {run.stderr}"


def come_until(terminal: int, mark: bytes) -> bytes:
    """What comes from a terminal, up to a mark, or until a time has passed."""
    seen, end = b"", time.monotonic() + 20
    while mark not in seen and time.monotonic() < end:
        if select.select([terminal], [], [], 0.2)[0]:
            seen += os.read(terminal, 65536)
    return seen


def typed_fault(shell: list[str], setting: str, line: str, wanted: list[str], folder: str) -> Fault:
    """What is wrong with the words that a shell at a terminal makes of a typed line."""
    terminal, inner = pty.openpty()
    place = {**os.environ, "TERM": "dumb", "HOME": folder}
    run = subprocess.Popen(shell, cwd=folder, stdin=inner, stdout=inner, stderr=inner, env=place, start_new_session=True)
    os.close(inner)
    try:
        os.write(terminal, f"{setting}; {SHOWING}\n".encode())
        come_until(terminal, b"ready")
        os.write(terminal, f"{line}\n".encode())
        came = come_until(terminal, b"]<end>")
    finally:
        run.kill()
        run.wait()
        os.close(terminal)
    shown = "".join(f"[{word}]" for word in wanted) + "<end>"
    return None if shown.encode() in came else f"{came[-200:]!r} for {shown}"


def typed_checks(prefix: str, folder: str) -> Cases:
    """The completions at a terminal, of bash and of zsh, and what fish offers."""
    for name in FILES:
        os.makedirs(os.path.join(folder, os.path.dirname(name)), exist_ok=True)
        open(os.path.join(folder, name), "wb").close()
    bash = ["bash", "--norc", "--noprofile", "-i"], f"source '{os.path.join(prefix, COMPLETIONS)}'"
    for line, wanted in TYPED:
        yield f"bash completes {line!r}", typed_fault(*bash, line, wanted, folder)
    if shutil.which("zsh"):
        functions = os.path.join(prefix, "share/zsh/site-functions")
        zsh = ["zsh", "-f", "-i"], f"fpath=('{functions}' $fpath); autoload -Uz compinit; compinit -u -D"
        for line, wanted in TYPED:
            yield f"zsh completes {line!r}", typed_fault(*zsh, line, wanted, folder)
    if shutil.which("fish"):
        script = os.path.join(prefix, "share/fish/vendor_completions.d/omega.fish")
        for line, wanted in OFFERED_BY_FISH:
            words = ["fish", "-c", f"source '{script}'; complete -C '{line}'"]
            run = subprocess.run(words, capture_output=True, text=True, cwd=folder)
            came = [row.split("\t")[0] for row in run.stdout.splitlines()]
            yield f"fish completes {line!r}", None if came == wanted else f"{came} for {wanted}: {run.stderr}"


def completion_checks(room: str) -> Cases:
    """The completions in each shell that is installed."""
    prefix = os.path.join(room, "prefix")
    subprocess.run([sys.executable, PACKAGE, "install", "--program", OMEGA, "--prefix", "/prefix", "--root", room],
                   check=True)
    yield "install", prefix_fault(prefix)
    for words, wanted in OFFERED:
        yield f"bash: {' '.join(words)}", offered_fault(os.path.join(prefix, COMPLETIONS), words, wanted)
    for shell, path in (("zsh", "share/zsh/site-functions/_omega"),
                        ("fish", "share/fish/vendor_completions.d/omega.fish")):
        if shutil.which(shell):
            run = subprocess.run([shell, "-n", os.path.join(prefix, path)], capture_output=True, text=True)
            yield f"{shell} reads its completions", run.stderr.strip() or None
    yield from typed_checks(prefix, os.path.join(room, "typed"))


def package_checks() -> Cases:
    """A row a check: what it is, and what is wrong."""
    with tempfile.TemporaryDirectory() as room:
        first, again = (os.path.join(room, name) for name in ("first", "again"))
        names = made_in(first)
        made_in(again)
        for name in names:
            same = bytes_of(first, name) == bytes_of(again, name)
            yield f"{name} made twice", None if same else "its bytes differ"
        yield "sums", sums_fault(first)
        for name in names:
            at = os.path.join(room, f"in-{name}")
            os.mkdir(at)
            if name.endswith(".tar.gz"):
                yield name, archive_fault(os.path.join(first, name), at)
            elif name.endswith(".deb") and shutil.which("dpkg"):
                yield name, debian_fault(os.path.join(first, name), at)
        yield from completion_checks(room)
