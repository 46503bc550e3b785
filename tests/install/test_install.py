"""What ./install puts into a prefix works from there, and --uninstall removes exactly that.

The programs are those that were built, or those that --unproved kept. ./install refuses what is not proved,
so an unproved program or library is tried as a copy that does not say so. With dpkg-deb and lintian a Debian
package is made and checked, too, and as root its programs run in a folder that has nothing else but the
system's libraries."""
from __future__ import annotations

import glob
import gzip
import os
import re
import shutil
import sys
import tempfile
from collections.abc import Iterator, Sequence
from pathlib import Path

import pytest

from built import NotBuilt, program_of
from commands import TOP, Ended, run as run_command, text_of, write_file

INSTALL = os.path.join(TOP, "install")
WITH_PYTHON = {"PATH": os.path.dirname(sys.executable) + ":/usr/bin:/bin"}
PROGRAMS = ("shmsim", "shmview", "shmcheck")
EXAMPLES = sorted(path[:-2] for path in glob.glob(os.path.join(TOP, "examples", "c", "*.c")))
CMAKE = """cmake_minimum_required(VERSION 3.5)
project(first C)
find_package(nogcuvema {version} REQUIRED)
foreach(kind nogcuvema static)
  add_executable(first_${{kind}} first.c)
  target_link_libraries(first_${{kind}} nogcuvema::${{kind}})
endforeach()
"""
PYTHON = """
import nogcuvema

with nogcuvema.Machine() as machine:
    at = machine.attach(1, machine.get(1, nogcuvema.PRIVATE, 8192))
    machine.store(1, at + 4094, bytes([1, 2, 3, 4]))
    print(machine.load(1, at + 4093, 6).hex(), nogcuvema.__file__)
"""


def run(words: Sequence[str], given: str = "", folder: str | None = None, **more: str) -> Ended:
    """Runs a command in an environment without the repository and the toolchain."""
    return run_command(words, given, cwd=folder,
                       env={"PATH": "/usr/bin:/bin", "HOME": os.environ.get("HOME", "/"), **more})


def tree(folder: str) -> list[str]:
    """All files, links and folders below a folder."""
    return sorted(os.path.relpath(os.path.join(at, it), folder) for at, folders,
                  files in os.walk(folder) for it in folders + files)


class Prefix:
    """A prefix in a folder of the test's own."""

    def __init__(self, path: str, library: str, programs: str) -> None:
        self.path = path
        self.words = ["--library", library, "--programs", programs]

    def install(self, *more: str) -> Ended:
        return run([sys.executable, "-B", INSTALL, *(more or ("--prefix", self.path)), *self.words])

    def uninstall(self, *more: str) -> Ended:
        return run([sys.executable, "-B", INSTALL, "--uninstall", *(more or ("--prefix", self.path))])


@pytest.fixture(scope="module")
def room() -> Iterator[str]:
    with tempfile.TemporaryDirectory(prefix="install.") as folder:
        os.chmod(folder, 0o755)
        yield folder


@pytest.fixture(scope="module")
def sources(library: str, room: str) -> Prefix:
    """The library and the programs that are installed, as if they were proved."""
    programs = f"{room}/programs"
    os.mkdir(programs)
    copy_programs(programs)
    words = ["cc", "-std=gnu11", "-D_GNU_SOURCE", "-I", library, *glob.glob(f"{TOP}/run/*.c"),
             f"{library}/libnogcuvema.a",
             "-Wl,--wrap=malloc,--wrap=realloc,--wrap=free"]
    if os.uname().machine == "x86_64" and run([*words, "-o", f"{programs}/shmrun"]).status == 0:
        # an unproved library says so in this section
        run(["objcopy", "--remove-section", ".comment", f"{programs}/shmrun"])
    return Prefix("", library_in(f"{room}/library", library), programs)


@pytest.fixture(scope="module")
def prefix(sources: Prefix, room: str) -> Prefix:
    """An installation, whose whole prefix was moved then."""
    made = Prefix(f"{room}/first/prefix", *sources.words[1::2])
    assert made.install().status == 0
    check_pkg_config(made, room)
    shutil.move(made.path, f"{room}/moved")
    made.path = f"{room}/moved"
    return made


@pytest.fixture
def fresh(sources: Prefix, folder: str) -> Prefix:
    """An installation of the test's own."""
    made = Prefix(f"{folder}/prefix", *sources.words[1::2])
    assert made.install().status == 0
    return made


@pytest.fixture(scope="module")
def version() -> str:
    return run([sys.executable, "-B", INSTALL, "--version"]).out.split()[1]


def check_example(source: str, folder: str, words: Sequence[str]) -> None:
    """An example is compiled by these words and prints its output, without being told where libraries are."""
    to = os.path.join(folder, os.path.basename(source))
    assert run(["cc", "-std=c99", source + ".c", "-o", to, *words]) == (0, "", "")
    assert run([to]) == (0, text_of(source + ".out"), "")


def check_pkg_config(prefix: Prefix, folder: str, libdir: str = "lib") -> None:
    """Without pkg-config nothing is checked here; test_pkg_config is skipped then."""
    if shutil.which("pkg-config"):
        path = f"{prefix.path}/{libdir}/pkgconfig"
        words = run(["pkg-config", "--cflags", "--libs", "nogcuvema"], PKG_CONFIG_PATH=path).out.split()
        for source in EXAMPLES:
            check_example(source, folder, words)


def test_pkg_config(prefix: Prefix, folder: str, version: str) -> None:
    """pkg-config finds the library in a prefix that was moved."""
    if shutil.which("pkg-config") is None:
        pytest.skip("there is no pkg-config")
    check_pkg_config(prefix, folder)
    ended = run(["pkg-config", "--modversion", "nogcuvema"], PKG_CONFIG_PATH=f"{prefix.path}/lib/pkgconfig")
    assert ended == (0, f"{version}\n", "")


@pytest.mark.parametrize("source", EXAMPLES, ids=os.path.basename)
def test_by_hand(prefix: Prefix, folder: str, source: str) -> None:
    check_example(source, folder, [f"-I{prefix.path}/include", f"{prefix.path}/lib/libnogcuvema.a"])


@pytest.mark.parametrize("asked, is_found", [("", True), ("99.0", False), ("0.9", False)])
def test_cmake(prefix: Prefix, folder: str, version: str, asked: str, is_found: bool) -> None:
    """A project finds the package and both targets; one that asks for another version is refused."""
    if shutil.which("cmake", path="/usr/bin:/bin:/usr/local/bin") is None:
        pytest.skip("there is no cmake")
    asked = asked or version
    write_file(folder, "CMakeLists.txt", CMAKE.format(version=asked))
    shutil.copy(f"{TOP}/examples/c/page_seam.c", f"{folder}/first.c")
    ended = run(["cmake", f"-DCMAKE_PREFIX_PATH={prefix.path}", "-B", "made", "."], folder=folder)
    assert (ended.status == 0) == is_found
    if not is_found:
        assert f'"{asked}"' in ended.said
        return
    assert run(["cmake", "--build", "made"], folder=folder).status == 0
    for kind in ("nogcuvema", "static"):
        assert run([f"{folder}/made/first_{kind}"]) == (0, text_of("examples/c/page_seam.out"), "")


def test_python(prefix: Prefix) -> None:
    [package] = glob.glob(f"{prefix.path}/lib/python3*/*-packages")
    status, printed, said = run([sys.executable, "-B", "-c", PYTHON], folder="/", PYTHONPATH=package)
    assert status == 0
    assert printed.startswith("000102030400 " + package)
    # the prompt shows the machine with the viewer's program, which is installed next to it
    words = [sys.executable, "-B", "-m", "nogcuvema"]
    status, printed, said = run(words, "1 s = shmget private 4096 600\n1 shmat s null -\nshow\n", "/",
                                PYTHONPATH=package)
    assert status == 0
    assert "step 2" in printed
    assert "piece 0x40000000 0 0 1 rw" in printed


def test_programs(prefix: Prefix, version: str) -> None:
    """The programs run from the prefix, on a path without the toolchain."""
    script, wanted = text_of(f"{TOP}/examples/page_seam.shm"), text_of(f"{TOP}/examples/page_seam.out")
    sim, view, checks = (f"{prefix.path}/bin/{name}" for name in PROGRAMS)
    for path in {"/usr/bin:/bin", os.path.dirname(sys.executable) + ":/usr/bin:/bin"}:
        assert run([sim, "serial", "ram:64"], script, "/", PATH=path) == (0, wanted, "")
    status, printed, said = run([view, "--text", "ram:64"], script, "/",
                                PATH=os.path.dirname(sys.executable) + ":/usr/bin:/bin")
    assert status == 0
    assert "step 4" in printed
    assert not said
    status, printed, said = run([sim, "--explain"], "limit\n", "/")
    assert status == 1
    assert printed.startswith("line 1, column 1: no limits line\n")
    assert run([sim, "serial", "ram:64"], "no\n") == (1, "", "shmsim: line 1: no limits line\n")
    ran = run([checks, "outcomes"], text_of(f"{TOP}/tests/outcomes/never_born.shm"), "/")
    assert ran == (0, text_of(f"{TOP}/tests/outcomes/never_born.out"), "")
    for name, program in zip(PROGRAMS, (sim, view, checks)):
        assert run([program, "--version"]) == (0, f"{name} {version}\n", "")
        status, printed, _ = run([program, "--help"])
        told = re.findall(r"(/\S+\.md)", printed)
        assert status == 0
        assert told
        assert all(os.path.isfile(it) for it in told)
        words = {"shmsim": ["serial", "ram:1"], "shmview": ["ram:1"], "shmcheck": ["outcomes"]}[name]
        status, printed, said = run([program, "--unproved", *words])
        assert status == 2
        assert not printed
        assert "is for the repository" in said


def test_shmrun(prefix: Prefix, version: str) -> None:
    """A program of this system runs under the installed shmrun, over the library that is in it."""
    shmrun = f"{prefix.path}/bin/shmrun"
    if not os.path.exists(shmrun):
        pytest.skip("shmrun is not built on this machine")
    assert run([shmrun, "--version"]) == (0, f"shmrun {version}\n", "")
    told = re.findall(r"(/\S+\.md)", run([shmrun, "--help"]).out)
    assert told
    assert all(os.path.isfile(it) for it in told)
    ended = run([shmrun, "cat", "/proc/sysvipc/shm"])
    assert (ended.status, ended.out.count("\n"), ended.said) == (0, 1, "")


def test_contents(prefix: Prefix, version: str) -> None:
    """The shared object's name, and that no text names the repository."""
    shared = f"{prefix.path}/lib/libnogcuvema.so.{version}"
    soname = f"libnogcuvema.so.{version.split('.', maxsplit=1)[0]}"
    assert f"[{soname}]" in run(["readelf", "-d", shared]).out
    for name in (soname, "libnogcuvema.so"):
        assert os.path.realpath(f"{prefix.path}/lib/{name}") == os.path.realpath(shared)
    named = []
    for path in tree(prefix.path):
        full = os.path.join(prefix.path, path)
        if os.path.isfile(full):
            named += [path] * (TOP.encode() in Path(full).read_bytes() and "/bin/" not in path)
    assert not named


def test_man(prefix: Prefix) -> None:
    """The pages are in the folders of their sections."""
    wanted = [*(f"man1/{name}.1" for name in PROGRAMS), "man3/nog_copy.3", "man3/nog_get.3",
              "man5/shmscript.5", "man7/nogcuvema.7"]
    missing = [it for it in wanted if not os.path.isfile(f"{prefix.path}/share/man/{it}")]
    assert not missing


def test_upgrade(fresh: Prefix) -> None:
    """What only an earlier version had installed is removed; what the user put there stays."""
    first = tree(fresh.path)
    for name in "lib/old.txt", "lib/own.txt":
        Path(os.path.join(fresh.path, name)).write_text("a file\n", "ascii")
    manifest = f"{fresh.path}/share/nogcuvema/installed.txt"
    with open(manifest, "a", encoding="ascii") as file:
        file.write("f lib/old.txt\n")
    status, _, said = fresh.install()
    assert (status, sorted(tree(fresh.path))) == (0, sorted([*first, "lib/own.txt"]))
    assert "lib/old.txt" not in text_of(manifest)
    os.remove(os.path.join(fresh.path, "lib", "own.txt"))


def test_uninstall(fresh: Prefix) -> None:
    """Exactly the installed files are removed, and what Python made of them; a second installation over the
    first changes nothing."""
    first = tree(fresh.path)
    assert fresh.install()[0] == 0
    assert tree(fresh.path) == first
    [package] = glob.glob(f"{fresh.path}/lib/python3*/*-packages")
    run([sys.executable, "-c", PYTHON], folder="/", PYTHONPATH=package, PYTHONDONTWRITEBYTECODE="")
    assert any("__pycache__" in it for it in tree(fresh.path))
    own = os.path.join(fresh.path, "lib", "own.txt")
    Path(own).write_text("mine\n", "ascii")
    status, _, said = fresh.uninstall()
    assert (status, tree(fresh.path)) == (0, ["lib", "lib/own.txt"])
    status, _, said = fresh.uninstall()
    assert status == 3
    assert "nothing is installed" in said
    os.remove(own)


def test_old_manifest(sources: Prefix, folder: str) -> None:
    """What version 1.0.0 installed is removed too, whose list named prefix and parents as `.` and `..`."""
    to = f"{folder}/made/prefix"
    for name, text in (("lib/file", ""), ("share/nogcuvema/installed.txt",
                                          "d .\nd ..\nd lib\nd share\nd share/nogcuvema\nf lib/file\nf "
                                          "share/nogcuvema/installed.txt\n")):
        os.makedirs(os.path.dirname(f"{to}/{name}"), exist_ok=True)
        Path(f"{to}/{name}").write_text(text, "ascii")
    status, _, said = sources.uninstall("--prefix", to)
    assert status == 0
    assert tree(folder) == []


def test_destdir(sources: Prefix, folder: str) -> None:
    """A package's files are those of the prefix, below another folder; they name only the prefix."""
    words = ("--prefix", "/opt/nogcuvema", "--destdir", f"{folder}/stage")
    status, _, said = sources.install(*words)
    assert status == 0
    assert os.path.isfile(f"{folder}/stage/opt/nogcuvema/include/nogcuvema.h")
    assert not os.path.exists("/opt/nogcuvema")
    sources.uninstall(*words)
    assert tree(folder) == []


def test_folder_in_the_place_of_a_file(sources: Prefix, folder: str) -> None:
    """An installation that is refused leaves no file; the file's turn comes after most others."""
    os.makedirs(f"{folder}/prefix/share/doc/nogcuvema/README.md")
    before = tree(folder)
    status, _, said = sources.install("--prefix", f"{folder}/prefix")
    assert status == 3
    assert "nogcuvema/README.md" in said
    assert tree(folder) == before


@pytest.mark.parametrize("words, wanted, told", [
    ("--nosuch", 2, "--nosuch"), ("--prefix", 2, "--prefix"), ("--prefix here", 2, "absolute path"),
    ("--prefix {0}/prefix --library {0}", 125, "not built"),
    ("--prefix {0}/prefix --library {1} --programs {0}", 125, "not built")])
def test_refusals(sources: Prefix, folder: str, words: str, wanted: int, told: str) -> None:
    ended = run([sys.executable, "-B", INSTALL, *words.format(folder, sources.words[1]).split()])
    assert (ended.status, ended.out) == (wanted, "")
    assert told in ended.said
    assert tree(folder) == []


@pytest.mark.parametrize("words, told", [("--help", "./install"), ("-h", "./install"), ("help", "./install"),
                                         ("--version", "install ")])
def test_own_words(words: str, told: str) -> None:
    ended = run([sys.executable, "-B", INSTALL, words])
    assert (ended.status, ended.said) == (0, "")
    assert told in ended.out


MARKDOWN_LINK = r"\]\((?!https?:)([^)\s]+)\)"
HTML_LINK = r"""(?:href|src)=["'](?!https?:|data:)([^"'$]+)["']"""
UNPROVED = b"nogcuvema: this program is not proved\n"


def copy_programs(folder: str) -> None:
    """Copies the programs into a folder, without the line that says that one is not proved."""
    for name in PROGRAMS:
        try:
            path = program_of(name, may_be_unproved=True)
        except NotBuilt as why:
            pytest.skip(str(why))
        content = Path(path).read_bytes()
        with open(os.path.join(folder, name), "wb") as file:
            file.write(content[:-len(UNPROVED)] if content.endswith(UNPROVED) else content)
        os.chmod(os.path.join(folder, name), 0o755)


def library_in(folder: str, library: str) -> str:
    """A copy of the library in which the header does not say that it is not proved."""
    shutil.copytree(library, folder, symlinks=True)
    text = text_of(f"{folder}/nogcuvema.h").replace('-unproved"', '"')
    Path(f"{folder}/nogcuvema.h").write_text(text, "ascii")
    return folder


def refused(sources: Prefix, folder: str, words: Sequence[str]) -> str:
    """What ./install says as it refuses something that is not proved."""
    ended = run([sys.executable, "-B", INSTALL, "--prefix", f"{folder}/prefix", *words])
    assert (ended.status, ended.out) == (125, "")
    assert not os.path.exists(f"{folder}/prefix")
    return ended.said


@pytest.mark.parametrize("name", [*PROGRAMS, "shmrun"])
def test_unproved_program(sources: Prefix, folder: str, version: str, name: str) -> None:
    """A program that --unproved kept says what it is, and is refused; the start script says so too."""
    programs = shutil.copytree(sources.words[3], f"{folder}/programs")
    mark = f"nogcuvema {version}-unproved\0".encode() if name == "shmrun" else UNPROVED
    if not os.path.isfile(f"{programs}/{name}"):
        pytest.skip(f"{name} is not built on this machine")
    with open(f"{programs}/{name}", "ab") as file:
        file.write(mark)
    told = (f"install: the program {programs}/{name} is not proved, since ./{name} --unproved made it: "
            f"./{name} builds one that is\n")
    assert refused(sources, folder, [*sources.words[:2], "--programs", programs]) == told
    kept = f"{TOP}/build/unproved/{name}"
    if os.path.isfile(kept):
        assert Path(kept).read_bytes().endswith(UNPROVED)
    if name != "shmrun":
        assert run([f"{TOP}/{name}", "--unproved", "--version"]) == (0, f"{name} {version}-unproved\n", "")


def test_unproved_library(sources: Prefix, folder: str) -> None:
    library = shutil.copytree(sources.words[1], f"{folder}/library", symlinks=True)
    text = re.sub('(NOG_VERSION_TEXT ".*)"', r'\1-unproved"', text_of(f"{library}/nogcuvema.h"))
    write_file(library, "nogcuvema.h", text)
    assert f"the library in {library} is not proved" in refused(sources, folder,
                                                                ["--library", library, *sources.words[2:]])


def has_symbols(path: str) -> bool:
    return ".symtab" in run(["readelf", "-SW", path])[1]


def test_stripped(prefix: Prefix, folder: str) -> None:
    """Programs and library have no symbols; if asked for, these are where a debugger looks for them."""
    if shutil.which("readelf") is None:
        pytest.skip("there is no readelf")
    [shared] = [it for it in glob.glob(f"{prefix.path}/lib/libnogcuvema.so.*.*") if not it.endswith(".debug")]
    for path in [*(f"{prefix.path}/lib/nogcuvema/bin/{name}" for name in PROGRAMS), shared]:
        assert not has_symbols(path)
        assert not os.path.exists(f"{path}.debug")
        with open(path, "rb") as file:
            assert file.read(4) == b"\x7fELF"
    assert has_symbols(f"{prefix.words[3]}/shmsim")
    to = f"{folder}/symbols"
    status, _, said = prefix.install("--prefix", to, "--symbols")
    assert status == 0
    for path in [*(f"{to}/lib/nogcuvema/bin/{name}" for name in PROGRAMS), shared.replace(prefix.path, to)]:
        linked = f"{os.path.basename(path)}.debug\0".encode() in Path(path).read_bytes()
        assert not has_symbols(path)
        assert has_symbols(f"{path}.debug")
        assert linked


def test_manifest(prefix: Prefix) -> None:
    """The list names each file and folder by its path below the prefix, without `.` and `..`."""
    lines = text_of(f"{prefix.path}/share/nogcuvema/installed.txt").splitlines()
    wrong = [it for it in lines if re.search(r"(^| |/)\.{1,2}(/|$)", it)]
    assert not wrong
    files = {it for it in tree(prefix.path) if not os.path.isdir(f"{prefix.path}/{it}")
             or os.path.islink(f"{prefix.path}/{it}")}
    assert {it[2:] for it in lines if it.startswith("f ")} == files


def anchors(text: str) -> set[str]:
    """The anchors of a page's headings."""
    found = re.findall(r"^#+ (.*)", text, re.M)
    return {re.sub(r"[^\w -]", "", it.strip().lower()).replace(" ", "-") for it in found}


def check_docs(root: str) -> None:
    """The docs keep the repository's tree; each link of an installed page leads to a page of the docs."""
    docs = f"{root}/share/doc/nogcuvema"
    pages = [it for it in tree(docs) if it.endswith((".md", ".html"))]
    wanted = {"README.md", "CHANGELOG.md", *(os.path.relpath(it, TOP) for it in glob.glob(f"{TOP}/docs/*.md")
                                             + glob.glob(f"{TOP}/docs/pages/*.html"))}
    assert set(pages) == wanted
    links = 0
    for page in pages:
        text = text_of(f"{docs}/{page}")
        found = re.findall(MARKDOWN_LINK if page.endswith(".md") else HTML_LINK, text)
        for link in found:
            path, _, heading = link.partition("#")
            to = os.path.normpath(os.path.join(docs, os.path.dirname(page),
                                               path)) if path else f"{docs}/{page}"
            is_there = os.path.exists(to) and os.path.commonpath([docs, to]) == docs
            is_there = is_there and (not heading or not to.endswith(".md") or heading in anchors(text_of(to)))
            assert is_there, f"{page}: the link {link} leads nowhere"
            links += 1
    assert links > 100
    pictures = {os.path.relpath(it, TOP) for it in glob.glob(f"{TOP}/docs/pictures/*.png")}
    assert pictures and pictures <= set(tree(docs))


def test_docs(prefix: Prefix) -> None:
    check_docs(prefix.path)


TRACE = "1 shmget(IPC_PRIVATE, 4096, IPC_CREAT|0600) = 0\n"


def test_kit(prefix: Prefix, folder: str, version: str) -> None:
    """The kit, from_strace and small_peer run without the repository, over what is installed."""
    conform, strace, small = (f"{prefix.path}/bin/nogcuvema-{name}"
                              for name in ("conform", "from-strace", "small-peer"))
    assert run([conform, "--version"], "", "/", **WITH_PYTHON) == (0, f"conform {version}\n", "")
    listed = run([conform, "--library", "--list"], "", "/", **WITH_PYTHON)
    wanted = len(glob.glob(f"{TOP}/conformance/cases/**/*.shm", recursive=True))
    assert listed[0] == 0
    assert len(listed[1].splitlines()) == wanted
    for words in (["--no-peer", "sizes", "keys"], ["--library", "--no-peer", "sizes", "keys"],
                  ["--rules", "linux", "--no-peer", "sizes", "keys"]):
        status, printed, said = run([conform, *words], "", "/", **WITH_PYTHON)
        assert status == 0
        assert re.match(r"sizes: as expected .*\nkeys: as expected .*\ncases: as expected 2\n", printed)
        assert not said
    Path(f"{folder}/trace").write_text(TRACE, "ascii")
    status, printed, said = run([strace, "trace", "--script", "script", "--log", "log"], "", folder,
                                **WITH_PYTHON)
    told = ("next: shmcheck judge log --rules linux < script > log.verdict\n"
            "then: nogcuvema-from-strace trace --verdict log.verdict\n")
    assert (status, printed) == (0, told)
    # the command that it names, with the installed program
    judged = run(["sh", "-c", printed.splitlines()[0][len("next: "):] if printed else "false"], "", folder,
                 PATH=f"{prefix.path}/bin:{WITH_PYTHON['PATH']}")
    verdict = text_of(f"{folder}/log.verdict") if os.path.exists(f"{folder}/log.verdict") else ""
    assert judged[0] == 0
    assert verdict.startswith("legal\n")
    status, printed, said = run([small, "data", "sizes"], "", "/", **WITH_PYTHON)
    Path(f"{folder}/small_script.h").write_text(printed, "ascii")
    kit = f"{prefix.path}/lib/nogcuvema/conformance"
    words = ["cc", "-std=c89", "-pedantic", "-I", f"{kit}/port_of_linux", "-I", folder, f"{kit}/small_peer.c",
             "-o", f"{folder}/small_peer"]
    built = run(words)
    assert (status, built[0]) == (0, 0)


def test_libdir(sources: Prefix, folder: str) -> None:
    """--libdir puts the library elsewhere below the prefix: pkg-config, the kit and programs find it."""
    other = Prefix(f"{folder}/prefix", *sources.words[1::2])
    for libdir in ("lib/x86_64-linux-gnu", f"{other.path}/lib/x86_64-linux-gnu"):
        assert other.install("--prefix", other.path, "--libdir", libdir).status == 0
        assert not glob.glob(f"{other.path}/lib/libnogcuvema*")
    check_pkg_config(other, folder, "lib/x86_64-linux-gnu")
    ended = run([f"{other.path}/bin/nogcuvema-conform", "--library", "--no-peer", "sizes"], "", "/",
                **WITH_PYTHON)
    assert ended.status == 0, ended.said
    assert ended.out.startswith("sizes: as expected")
    ended = run([f"{other.path}/bin/shmsim", "serial", "ram:64"], text_of("examples/page_seam.shm"), "/")
    assert ended == (0, text_of("examples/page_seam.out"), "")


@pytest.mark.parametrize("libdir", ["/etc", "..", "../other", "."])
def test_wrong_libdir(sources: Prefix, folder: str, libdir: str) -> None:
    status, printed, said = sources.install("--prefix", f"{folder}/prefix", "--libdir", libdir)
    assert (status, printed) == (2, "")
    assert "--libdir takes a folder below the prefix" in said


@pytest.mark.parametrize("place, has_path",
                         [("/usr", False), ("/usr/local", False), ("/opt/nogcuvema", True)])
def test_run_path(sources: Prefix, folder: str, place: str, has_path: bool) -> None:
    """A program that is linked with the library gets a run path, but not in a standard prefix."""
    assert sources.install("--prefix", place, "--destdir", folder).status == 0
    text = text_of(f"{folder}{place}/lib/pkgconfig/nogcuvema.pc")
    assert ("rpath" in text) == has_path
    assert has_path or f"prefix={place}\nlibdir=${{prefix}}/lib\n" in text
    if place == "/usr" and os.path.isdir("/usr/lib/python3/dist-packages"):
        assert os.path.isfile(f"{folder}/usr/lib/python3/dist-packages/nogcuvema/__init__.py")


CONTROL = """Package: nogcuvema
Version: {version}-1
Architecture: amd64
Maintainer: Nogcuvema maintainers <maintainers@example.org>
Depends: libc6, python3
Section: devel
Priority: optional
Description: System V shared memory calls over simulated processes
 A library and programs that give the exact reply to each call of shmget,
 shmat, shmdt and shmctl.
"""
COPYRIGHT = ("Format: https://www.debian.org/doc/packaging-manuals/copyright-format/1.0/\n\nFiles: *\n"
             "Copyright: Nogcuvema maintainers\nLicense: none\n No licence has been chosen yet.\n")
CHANGES = ("nogcuvema ({version}-1) unstable; urgency=medium\n\n  * A package of a test.\n\n"
           " -- Nogcuvema maintainers <maintainers@example.org>  Sat, 28 Nov 2026 12:00:00 +0000\n")


def gzipped(path: str) -> None:
    """Compresses a file as a Debian package has it."""
    content = Path(path).read_bytes()
    with gzip.GzipFile(f"{path}.gz", "wb", 9, mtime=0) as file:
        file.write(content)
    os.remove(path)


@pytest.fixture(scope="module")
def package(sources: Prefix, room: str, version: str) -> str:
    """A Debian package of what ./install puts into a DESTDIR. Its maker adds the files that Debian wants."""
    if shutil.which("dpkg-deb") is None:
        pytest.skip("there is no dpkg-deb")
    stage = f"{room}/package"
    words = ["--prefix", "/usr", "--libdir", "lib/x86_64-linux-gnu", "--destdir", stage]
    assert sources.install(*words).status == 0
    for path in glob.glob(f"{stage}/usr/share/man/man*/*"):
        gzipped(path)
    doc = f"{stage}/usr/share/doc/nogcuvema"
    os.mkdir(f"{stage}/DEBIAN")
    write_file(doc, "copyright", COPYRIGHT)
    gzipped(write_file(doc, "changelog.Debian", CHANGES.format(version=version)))
    write_file(f"{stage}/DEBIAN", "control", CONTROL.format(version=version))
    write_file(f"{stage}/DEBIAN", "triggers", "activate-noawait ldconfig\n")
    write_file(f"{stage}/DEBIAN", "shlibs", "libnogcuvema 1 nogcuvema\n")
    files = [it for it in tree(stage) if os.path.isfile(f"{stage}/{it}")
             and not os.path.islink(f"{stage}/{it}")]
    sums = run(["md5sum", *(it for it in files if not it.startswith("DEBIAN/"))], folder=stage).out
    write_file(f"{stage}/DEBIAN", "md5sums", sums)
    made = f"{room}/nogcuvema_{version}-1_amd64.deb"
    assert run(["dpkg-deb", "--root-owner-group", "--build", stage, made]).status == 0
    return made


@pytest.fixture(scope="module")
def unpacked(package: str, room: str) -> str:
    """A clean folder with the package's files."""
    assert run(["dpkg-deb", "-x", package, f"{room}/clean"]) == (0, "", "")
    return f"{room}/clean"


def test_lintian(package: str, room: str) -> None:
    if shutil.which("lintian") is None:
        pytest.skip("there is no lintian")
    ended = run(["lintian", "--allow-root", "--no-tag-display-limit", package], HOME=room)
    assert ended.status in (0, 1, 2), ended.said
    assert not [line for line in ended.out.splitlines() if line.startswith("E: ")]


def test_docs_of_package(unpacked: str) -> None:
    check_docs(f"{unpacked}/usr")


RUNS = [("shmsim", ["serial", "ram:64"], "examples/page_seam"),
        ("shmcheck", ["outcomes"], "tests/outcomes/never_born")]


@pytest.mark.parametrize("name, words, stored", RUNS)
def test_program_of_package(unpacked: str, name: str, words: list[str], stored: str) -> None:
    ended = run([f"{unpacked}/usr/bin/{name}", *words], text_of(f"{stored}.shm"), "/")
    assert ended == (0, text_of(f"{stored}.out"), "")


def libraries_of(path: str) -> list[str]:
    """The files that the loader needs for a program."""
    return [str(it) for it in re.findall(r"(/\S+) \(0x", run(["ldd", path]).out)]


@pytest.fixture(scope="module")
def clean_system(unpacked: str, room: str) -> str:
    """A root folder with the package, a shell with a few tools, and their libraries, and nothing else."""
    if os.geteuid() != 0:
        pytest.skip("chroot needs root")
    root = shutil.copytree(unpacked, f"{room}/system", symlinks=True)
    tools = [f"/usr/bin/{name}" for name in ("dash", "readlink", "dirname", "cat", "sed", "mktemp", "rm")]
    programs = [f"{root}/usr/lib/nogcuvema/bin/{name}" for name in PROGRAMS]
    for path in [*tools, *(it for program in [*tools, *programs] for it in libraries_of(program))]:
        os.makedirs(os.path.dirname(root + path), exist_ok=True)
        shutil.copy2(path, root + path)
    for path, target in (("bin/sh", "/usr/bin/dash"), ("dev/null", ""), ("tmp/empty", "")):
        os.makedirs(os.path.dirname(f"{root}/{path}"), exist_ok=True)
        if target:
            os.symlink(target, f"{root}/{path}")
        else:
            write_file(root, path, "", 0o666)
    return str(root)


@pytest.mark.parametrize("name, words, stored", RUNS)
def test_clean_system(clean_system: str, name: str, words: list[str], stored: str) -> None:
    """The package's programs run where nothing else is installed."""
    path = "/usr/sbin:/usr/bin:/sbin:/bin"
    ended = run(["chroot", clean_system, f"/usr/bin/{name}", *words], text_of(f"{stored}.shm"), PATH=path)
    assert ended[:2] == (0, text_of(f"{stored}.out")), ended.said
