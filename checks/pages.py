"""What the pages say: each command of the README, CONTRIBUTING.md, `docs/`, the manual and the help writes what stands
below it. Pictures show what a command draws. Links lead to files, examples of `docs/library.md` are proved, the version
and the toolchain are those named, manual and help name the same, `docs/believe.md`, the tables of `docs/map.md` and
this list are what the sources make, comments have at most 120 columns.

Commands that need `dot`, `parallel` or abc are passed over where these are not installed. What is drawn for `dot` is
compared with the picture of that name in docs/pictures/ in any case, and each picture is made on some page. The README
links the first pages of both kinds of readers, `docs/users.md` and `docs/inside.md`, and these link all others. The
examples of docs/library.md stand in the crate that is proved, word for word. Each crate's README.md agrees with
crates.txt. The files of crates that a page names are there. The manual names the subcommands, options, refusals,
statuses and numbers that the help names, and no others.

A command stands in an indented block, behind `$ `. It goes on with the next line where it ends with a backslash or a
pipe, or inside single quotes. Up to the next command stands what it writes, on standard output and standard error
together. The commands of a block are given to one shell, so that `echo $?` writes the status of the one before; those
of a page work in one folder, in which `omega`, `docs` and `examples` are those of the repository. The help of the
program and the manual are pages as well.
"""
import glob
import os
import re
import shutil
import subprocess
import tempfile
from collections.abc import Iterable, Iterator

from believing import believing_checks
from listing import listing_checks
from manual import examples_of_manual, manual_checks
from map import map_checks
from pictures import PICTURES, picture_checks
from program import OMEGA, ROOT, SECONDS, Cases, help_of, output_of, subcommands
from widths import width_checks

MARK = "\x01done\x01"
# The folder of the examples of docs/library.md.
EXAMPLES = os.path.join("crates", "omega_tests", "src", "examples")
SHELL = "sh"
# Programs that a command may need, and without which it is passed over, by how the command calls them.
PERHAPS = {"dot": r"\bdot -T", "parallel": r"\bparallel -", "berkeley-abc": r"\bberkeley-abc -q"}
# A command that makes a picture: what draws, and the name of the picture.
DRAWING = re.compile(r"(.*\bomega draw .*) \| dot -Tsvg > (\w+)\.svg", re.DOTALL)
# The first pages: of users, and of those who check or change.
FIRST = ("docs/users.md", "docs/inside.md")
# Solvers that are shown in blocks that are not run.
ELSEWHERE = ("pgsolver ", "oink ")


def pages() -> Iterator[tuple[str, str]]:
    """The pages by their paths, with their texts."""
    paths = [os.path.join(ROOT, "README.md"), *sorted(glob.glob(os.path.join(ROOT, "docs", "*.md")))]
    for path in [*paths, os.path.join(ROOT, "CONTRIBUTING.md"), os.path.join(ROOT, "CHANGELOG.md")]:
        with open(path) as file:
            yield os.path.relpath(path, ROOT), file.read()


def indented_blocks(text: str, depth: int) -> Iterator[list[str]]:
    """The runs of lines that are indented at least so far, without the indentation."""
    block = []
    for line in [*text.split("\n"), ""]:
        if line.startswith(" " * depth):
            block.append(line[depth:])
        elif block:
            yield block
            block = []


def goes_on(command: str) -> bool:
    return command.endswith(("\\", "|")) or command.count("'") % 2 == 1


def commands_of(block: list[str]) -> list[tuple[str, str]]:
    """The commands of a block with what each writes."""
    made: list[tuple[list[str], list[str]]] = []
    for line in block:
        if made and not made[-1][1] and goes_on("\n".join(made[-1][0])):
            made[-1][0].append(line)
        elif line.startswith("$ "):
            made.append(([line[2:]], []))
        elif made:
            made[-1][1].append(line)
    return [("\n".join(command), "".join(line + "\n" for line in lines)) for command, lines in made]


def prepare(folder: str) -> None:
    """Lays out a folder as the repository is, as far as commands need it."""
    os.makedirs(os.path.join(folder, "home"))
    built = os.path.join(folder, "crates", "omega_tool", "out")
    os.makedirs(built)
    shutil.copy(OMEGA, os.path.join(built, "omega_tool"))
    os.symlink(OMEGA, os.path.join(folder, "omega"))
    for name in ("docs", "examples"):
        os.symlink(os.path.join(ROOT, name), os.path.join(folder, name))


def outputs_of(commands: list[str], folder: str) -> list[str]:
    """What the commands write, given to one shell in a folder."""
    script = "exec 2>&1\n" + "".join(
        f"{command}\nkept=$?; printf '%s' '{MARK}'; (exit $kept)\n" for command in commands)
    home = os.path.join(folder, "home")
    given = {"HOME": home, "PATH": f"{folder}:{home}/.local/bin:{os.environ['PATH']}", "LC_ALL": "C"}
    came = subprocess.run([SHELL, "-c", script], cwd=folder, env=given, stdin=subprocess.DEVNULL, capture_output=True,
                          timeout=SECONDS)
    return came.stdout.decode(errors="replace").split(MARK)[:-1]


def is_passed_over(command: str) -> bool:
    return any(re.search(call, command) and not shutil.which(name) for name, call in PERHAPS.items())


def run_of_block(block: list[str]) -> Iterator[tuple[str, str]]:
    """The commands that are run: those that need what is not installed left out, and what is drawn put into a file."""
    for command, wanted in commands_of(block):
        if drawing := DRAWING.fullmatch(command):
            yield f"{drawing[1]} > {drawing[2]}.dot", ""
        if not is_passed_over(command):
            yield command, wanted


def block_checks(label: str, block: list[str], folder: str) -> Cases:
    made = list(run_of_block(block))
    came = outputs_of([command for command, _ in made], folder) if made else []
    for index, (command, wanted) in enumerate(made):
        shown = command if len(command) < 70 else command[:67] + "..."
        if index >= len(came):
            yield f"{label}: $ {shown}", "it was not run"
        else:
            yield f"{label}: $ {shown}", None if came[index] == wanted else f"wrote {came[index]!r} for {wanted!r}"


def command_checks(label: str, blocks: Iterable[list[str]]) -> Cases:
    with tempfile.TemporaryDirectory() as folder:
        prepare(folder)
        for block in blocks:
            yield from block_checks(label, block, folder)
        yield from picture_checks(label, folder)


def unrun_lines(text: str) -> Iterator[str]:
    """Lines of indented blocks that call the program and are no command that is run."""
    for block in indented_blocks(text, 4):
        if not any(line.startswith(("$ ", *ELSEWHERE)) for line in block):
            yield from (line for line in block if re.match(r"(\./)?omega\s|.*\|\s*(\./)?omega\s", line))


def link_checks(label: str, text: str) -> Cases:
    for name, target in re.findall(r"\[([^\]]*)\]\(([^)#]+)\)", text):
        if "://" not in target:
            path = os.path.join(ROOT, os.path.dirname(label), target)
            yield f"{label}: the link {name}", None if os.path.exists(path) else f"{target} is not there"


def file_checks(label: str, text: str) -> Cases:
    """The files and folders of crates that a page names are there."""
    named = re.findall(r"`(crates/(?!NAME|CRATE)[\w./-]+)`", text)
    missing = [path for path in named if not os.path.exists(os.path.join(ROOT, path))]
    yield f"{label}: the files of crates that it names", f"{', '.join(missing)} is not there" if missing else None


def first_page_checks(texts: dict[str, str]) -> Cases:
    """The README links the first pages, and these each other page."""
    for label in FIRST:
        yield f"README.md links {label}", None if f"({label})" in texts["README.md"] else "it does not"
    linked = "".join(texts[label] for label in FIRST)
    for label in sorted(set(texts) - {*FIRST, "README.md"}):
        path = os.path.relpath(label, "docs")
        yield f"a first page links {label}", None if f"({path})" in linked else "none does"


def made_checks(texts: Iterable[str]) -> Cases:
    """Each picture is made by a command of a page."""
    made = {name for text in texts for block in indented_blocks(text, 4) for command, _ in commands_of(block)
            for _, name in DRAWING.findall(command)}
    for path in sorted(glob.glob(os.path.join(ROOT, PICTURES, "*.svg"))):
        name = os.path.basename(path)
        fault = None if name.removesuffix(".svg") in made else "no command of a page makes it"
        yield f"the picture {name}", fault


def example_checks() -> Cases:
    """The examples of the page on the library stand in their folder, word for word."""
    held = ""
    for path in sorted(glob.glob(os.path.join(ROOT, EXAMPLES, "*.rt"))):
        with open(path) as file:
            held += file.read() + "\n"
    with open(os.path.join(ROOT, "docs", "library.md")) as file:
        blocks = re.findall(r"^```rust\n(.*?)^```$", file.read(), re.MULTILINE | re.DOTALL)
    for block in blocks:
        fault = None if block in held else f"it is not in {EXAMPLES}"
        yield f"docs/library.md: the example {block.splitlines()[0]}", fault


def version_checks() -> Cases:
    """The version that the program writes is that of the newest changes, and the logic below it that of TOOLCHAIN. The
    toolchain in PATH may have another: then `make` has said so."""
    texts, said = dict(pages()), output_of(["--version"], b"").decode()
    lines = said.splitlines()
    newest = re.findall(r"^## (\S+),", texts["CHANGELOG.md"], re.MULTILINE)[0]
    yield "the version", None if lines[:1] == [f"omega {newest}"] else f"it is {said!r} for {newest}"
    with open(os.path.join(ROOT, "TOOLCHAIN")) as file:
        logic = file.read()
    is_logic = re.fullmatch(r"logic [0-9a-f]+\n", logic)
    yield "the logic", None if is_logic and lines[1:] == [f"proved in {logic.strip()}"] else f"{said!r} for {logic!r}"
    yield from header_checks(newest)


def header_checks(newest: str) -> Cases:
    """The header for C names the newest version, and the numbers of refusals that the package for Python names."""
    with open(os.path.join(ROOT, "include", "omega.h")) as file:
        header = file.read()
    with open(os.path.join(ROOT, "python", "omega", "library.py")) as file:
        names = re.search(r"^NAMES = \{(.*?)\}", file.read(), re.MULTILINE | re.DOTALL)
    named = re.findall(r'^#define OMEGA_VERSION "(.*)"$', header, re.MULTILINE)
    yield "the version of include/omega.h", None if named == [newest] else f"it is {named} for {newest}"
    # OMEGA_VERSION is the version of the header, so that refusal 20 has a longer name.
    numbers = {int(number): name.removesuffix("_UNKNOWN").replace("_", "")
               for name, number in re.findall(r"^    OMEGA_([A-Z_]+) = (\d+),? +/\*", header, re.MULTILINE)}
    python = {int(number): name.upper() for number, name in re.findall(r'(\d+): "(\w+)"', names[1] if names else "")}
    yield "the refusals of include/omega.h", None if numbers == python else f"{numbers} for {python}"


def page_checks() -> Cases:
    texts = dict(pages())
    for label, text in texts.items():
        yield from command_checks(label, indented_blocks(text, 4))
        for line in unrun_lines(text):
            yield f"{label}: {line}", "it stands in a block that is not run"
        yield from link_checks(label, text)
        yield from file_checks(label, text)
    yield from first_page_checks(texts)
    yield from made_checks(texts.values())
    yield from example_checks()
    yield from version_checks()
    for name in ("", *subcommands()):
        yield from command_checks(f"the help of {name or 'the program'}", indented_blocks(help_of(name), 2))
    yield from command_checks("docs/omega.1", examples_of_manual())
    yield from manual_checks()
    yield from width_checks()
    yield from believing_checks()
    yield from map_checks()
    yield from listing_checks()
