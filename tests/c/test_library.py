"""The C library: its header, its names and layouts, the programs over it, and the stored scripts. Two folders
of libraries are those of the toolchain's two compilers."""

from __future__ import annotations

import filecmp
import glob
import os
import re
import shutil
from collections.abc import Sequence

import pytest

from at_the_limits import SCRIPTS as AT_THE_LIMITS, main as write_scripts_at_the_limits
from commands import SECONDS, TOP, Conform, environment, run, text_of, write_file
from conftest import libraries_of
from crates import all_below, graph
from nogconform.generator import make_script
from nogcuvema.script import read_script

INCLUDE = os.path.join(TOP, "bindings", "c")
HEADER = os.path.join(INCLUDE, "nogcuvema.h")
WARNINGS = ["-Wall", "-Wextra", "-Wpedantic", "-Wshadow", "-Wconversion", "-Werror"]
SANITIZERS = ["-g", "-fsanitize=address,undefined", "-fno-sanitize-recover=all"]
LANGUAGES = (("c", "c99"), ("c", "c11"), ("c++", "c++98"), ("c++", "c++17"))
COMPILERS = {"c": ("cc", "clang"), "c++": ("c++", "clang++")}
TESTS = {"layout": [], "numbers": [], "calls": [], "exchanges": [], "guests": [], "mappings": [], "rules": [],
         "failures": [], "large": [], "linux_guest": [], "loans": [], "lookups": [], "ranges": [],
         "memory": ["-Wl,--wrap=malloc", "-Wl,--wrap=realloc", "-Wl,--wrap=free"],
         "bytes": ["-Wl,--wrap=malloc", "-Wl,--wrap=realloc"]}
# words with which a program does less, for valgrind
FEWER = {"tests/c/loans": ["10"]}
EXAMPLES = sorted(os.path.basename(path)[:-2]
                  for path in glob.glob(os.path.join(TOP, "examples", "c", "*.c")))
RANDOM = 40


@pytest.mark.parametrize("language, standard, compiler",
                         [(language, standard, it) for language,
                          standard in LANGUAGES for it in COMPILERS[language]])
def test_header(folder: str, language: str, standard: str, compiler: str) -> None:
    """The header alone, in each language by each compiler that is installed."""
    if shutil.which(compiler) is None:
        pytest.skip(f"there is no {compiler}")
    text = "#include <nogcuvema_linux.h>\n#include <nogcuvema_names.h>\nnog_machine machine = NOG_MACHINE_INITIALIZER;\n"
    source = write_file(folder, "header." + language.replace("c++", "cc"), text)
    words = [compiler, f"-std={standard}", *WARNINGS, "-I", INCLUDE, "-fsyntax-only", source]
    assert run(words) == (0, "", "")


def test_code_names() -> None:
    """Each code of the header has its name."""
    [codes] = re.findall(r"enum nog_code \{(.*?)\};", text_of(HEADER), re.S)
    names = re.findall(r'case (NOG_\w+): return "(NOG_\w+)";', text_of(HEADER.replace(".h", "_names.h")))
    assert [(name, name) for name in re.findall(r"^ *(NOG_\w+) = ", codes, re.M)] == names


def test_version() -> None:
    version = re.findall(r"^## ([0-9.]+)", text_of("CHANGELOG.md"), re.M)[0]
    first, second, third = map(int, version.split("."))
    named = re.findall(r'^#define NOG_VERSION(?:_TEXT)? "?([0-9.]+)"?$', text_of(HEADER), re.M)
    assert named == [str(10000 * first + 100 * second + third), version]


# the types of C for the types of the library's functions
PLAIN = {"u8": "void", "u32": "uint32_t", "i32": "int32_t", "u64": "uint64_t", "usize": "size_t",
         "Handle": "nog_machine"}


def c_type(name: str) -> str:
    """The type in C of a number or of a struct of the library."""
    return PLAIN.get(name) or re.sub("(?!^)([A-Z])", r"_\1", name).lower()


def c_parameters(parameter: str) -> list[str]:
    """The parameters in C, each a type and a name, of a parameter of a function of the library. A slice is a
    pointer and a count, which is called after it; a run of bytes has a length, whose name is free."""
    name, _, kind = parameter.partition(": ")
    if name == "alloc":
        return []
    if name == "handle":
        return ["nog_machine *machine"]
    const = "" if kind.startswith("&mut ") else "const " if kind[0] == "&" else None
    kind = kind.removeprefix("&mut ").removeprefix("&")
    if const is None:
        return [f"{c_type(kind)} {name}"]
    if kind[0] != "[":
        return [f"{const}{c_type(kind)} *{name}"]
    counted = "size_t " + ("LENGTH" if kind == "[u8]" else {"processes": "process", "told": "told"}.get(name, name[:-1])
                           + "_count")
    return [f"{const}{c_type(kind[1:-1])} *{name}", counted]


def test_prototypes() -> None:
    """Each prototype of the header has the parameters of the library's function: types, names, order."""
    sources = "".join(text_of(path)
                      for path in sorted(glob.glob(os.path.join(TOP, "crates", "nogcuvema", "src", "*.rt"))))
    functions = re.findall(r'extern "C" fn (nog_\w+)\(([^)]*)\) -> u32', sources)
    library = {name: [it for part in text.split(",") if part.strip() for it in c_parameters(part.strip())]
               for name, text in functions}
    prototypes = re.findall(r"^uint32_t (nog_\w+)\(([^)]*)\);", text_of(HEADER), re.M)
    header = {name: [" ".join(it.split()) for it in text.split(",") if it.strip() != "void"] for name,
              text in prototypes}
    assert sorted(library) == sorted(header)
    for name in sorted(library.keys() & header.keys()):
        named = [re.sub(r"^size_t (\w+_)?(len|size)$", "size_t LENGTH", it) for it in header[name]]
        if name == "nog_text":
            named[-1:] = header[name][-1:]
        assert named == library[name]


@pytest.mark.parametrize("file, words", [("libnogcuvema.a", ["-g"]), ("libnogcuvema.so", ["-D"])])
def test_names(each_library: str, file: str, words: list[str]) -> None:
    """The functions of the header are the names that the archive and the shared object show."""
    code = re.sub(r"/\*.*?\*/", "", text_of(HEADER), flags=re.S)
    shown = run(["nm", *words, "--defined-only", os.path.join(each_library, file)]).out
    found = [line.split()[-1] for line in shown.splitlines() if len(line.split()) == 3]
    assert sorted(found) == sorted(re.findall(r"^uint32_t (nog_\w+)\(", code, re.M))


def compile_c(source: str, to: str, library: str, flags: Sequence[str]) -> None:
    """Compiles a program over the archive."""
    archive = os.path.join(library, "libnogcuvema.a")
    words = ["cc", "-std=c99", *WARNINGS, *flags, "-I", library, os.path.join(TOP, source), archive, "-o", to]
    assert run(words) == (0, "", "")


PROGRAMS = [*((f"tests/c/{name}", flags) for name, flags in TESTS.items()),
            *((f"examples/c/{name}", []) for name in EXAMPLES)]
NAMES = [os.path.basename(name) for name, _ in PROGRAMS]


def check_program(name: str, words: list[str]) -> None:
    """A program ends with status 0 and no message, and prints the stored text, if there is one."""
    ended = run(words)
    assert (ended.status, ended.said, ended.out) == (0, "", text_of(f"{name}.out", ended.out))


@pytest.mark.parametrize("name, flags", PROGRAMS, ids=NAMES)
def test_program(each_library: str, folder: str, name: str, flags: list[str]) -> None:
    """The tests and the examples with the sanitizers."""
    to = os.path.join(folder, "program")
    compile_c(f"{name}.c", to, each_library, [*SANITIZERS, *flags])
    check_program(name, [to])


@pytest.mark.skipif(not shutil.which("valgrind"), reason="there is no valgrind")
@pytest.mark.parametrize("name, flags", PROGRAMS, ids=NAMES)
def test_valgrind(library: str, folder: str, name: str, flags: list[str]) -> None:
    """Each program once under valgrind, which sees the library's own accesses too, and leaks."""
    to = os.path.join(folder, "program")
    compile_c(f"{name}.c", to, library, ["-g", "-O1", *flags])
    leaks = ["--leak-check=full", "--show-leak-kinds=all", "--errors-for-leak-kinds=all"]
    words = [to, *FEWER.get(name, [])]
    assert (run(["valgrind", "-q", "--error-exitcode=9", *leaks, *words]).said, run(words).status) == ("", 0)


@pytest.fixture(scope="session")
def driver(each_library: str, tmp_path_factory: pytest.TempPathFactory) -> str:
    """The kit's program over the library, with the sanitizers."""
    to = str(tmp_path_factory.mktemp("driver") / "driver")
    compile_c("conformance/library.c", to, each_library, [*SANITIZERS, "-O1", "-DNOG_HAS_RULES"])
    return to


@pytest.fixture(scope="session")
def at_the_limits(tmp_path_factory: pytest.TempPathFactory) -> str:
    """The folder of the scripts that are too long to be stored."""
    folder = str(tmp_path_factory.mktemp("limits"))
    write_scripts_at_the_limits(folder)
    return folder


def stored_scripts() -> list[str]:
    """Each serial script without a fault."""
    places = [*glob.glob(f"{TOP}/tests/scripts/*"), f"{TOP}/examples"]
    paths = [path for place in places if not place.endswith("/threads")
             for path in glob.glob(f"{place}/*.shm")]
    return sorted(os.path.relpath(path, TOP)[:-4]
                  for path in paths if not os.path.exists(path[:-4] + ".status"))


def check_script(driver: str, word: str, name: str) -> None:
    """The driver takes the rules as a word, which a script with a line `rules` needs."""
    swap = text_of(name + ".swap", "ram:64").split()
    script = text_of(name + ".shm")
    limits = read_script(script).limits
    rules = int(limits.rules) if limits else 0
    words = [driver, *["--rules", str(rules)] * (rules != 0), word, *swap]
    assert run(words, script) == (0, text_of(name + ".out"), "")


@pytest.mark.parametrize("word", ["serial", "pieces"])
@pytest.mark.parametrize("name", stored_scripts())
def test_script(driver: str, word: str, name: str) -> None:
    """The driver prints for each stored script what the program must print."""
    check_script(driver, word, name)


@pytest.mark.parametrize("word", ["serial", "pieces"])
@pytest.mark.parametrize("name", AT_THE_LIMITS)
def test_script_at_the_limits(driver: str, word: str, name: str, at_the_limits: str) -> None:
    check_script(driver, word, os.path.join(at_the_limits, name))


def test_cases(driver: str, conform: Conform) -> None:
    """The replies that the rules give, of the conformance kit."""
    status, said = conform("--no-peer", "--program", driver)
    found = re.findall(r"^([a-z0-9_]+): (.*)$", said, re.M)
    assert not [name for name, told in found if os.path.exists(f"{TOP}/conformance/cases/{name}.shm")
                and not told.startswith("as expected")]
    assert status == 0


@pytest.mark.parametrize("number", range(RANDOM))
def test_random(driver: str, shmsim: str, number: int) -> None:
    """Random scripts over few slots: the driver prints what the program prints."""
    words, given = ["serial", "fuse:24:r9", "mirror:16", "fuse:8:w5", "sparse:24"], make_script("1", number)
    wanted = run([shmsim, *words], given)
    assert (wanted.status, run([driver, *words], given)[:2]) == (0, wanted[:2])


def test_pkg_config(each_library: str, folder: str) -> None:
    """The first program by pkg-config's words over the shared object, which it finds alone."""
    if shutil.which("pkg-config") is None:
        pytest.skip("there is no pkg-config")
    found = {**environment(PKG_CONFIG_PATH=each_library)}
    found.pop("LD_LIBRARY_PATH", None)
    words = run(["pkg-config", "--cflags", "--libs", "nogcuvema"], env=found).out.split()
    to = os.path.join(folder, "page_seam")
    assert run(["cc", "-std=c99", f"{TOP}/examples/c/page_seam.c", "-o", to, *words]) == (0, "", "")
    assert run([to], env=found) == (0, text_of("examples/c/page_seam.out"), "")


def test_python_example(each_library: str) -> None:
    ended = run([f"{TOP}/examples/python/page_seam.py", each_library])
    assert ended == (0, text_of("examples/c/page_seam.out"), "")


def test_cplusplus(each_library: str, folder: str) -> None:
    """A program in C++ links the archive: the names are C's."""
    if shutil.which("c++") is None:
        pytest.skip("there is no c++")
    text = "#include <nogcuvema.h>\nint main() { return nog_version() == NOG_VERSION ? 0 : 1; }\n"
    source, to = write_file(folder, "linked.cc", text), os.path.join(folder, "linked")
    archive = os.path.join(each_library, "libnogcuvema.a")
    assert run(["c++", *WARNINGS, "-I", each_library, source, archive, "-o", to]) == (0, "", "")
    assert run([to]).status == 0


def test_two_compilers(pytestconfig: pytest.Config) -> None:
    """Two folders have archives of different compilers."""
    archives = [os.path.join(it, "libnogcuvema.a") for it in libraries_of(pytestconfig)]
    if len(archives) < 2:
        pytest.skip("one library is there: a second --library=FOLDER names the other compiler's")
    assert not filecmp.cmp(archives[0], archives[1], shallow=False)


@pytest.mark.parametrize("words, wanted, text", [
    (["--nosuch"], 2, "usage: ./lib"), (["--unproved", "--backend", "llvm"], 2, "no --backend"),
    (["--archive", HEADER, "--unproved"], 2, "no --archive"), (["--backend"], 2, "no such backend"),
    (["--backend", "nosuch"], 2, "no such backend"), (["--backend", ""], 2, "no such backend"),
    (["--archive", "nosuch"], 2, "no such archive"), (["--to"], 2, "--to takes a folder"),
    (["--help"], 0, "Usage: ./lib")
])
def test_words(words: list[str], wanted: int, text: str) -> None:
    """What ./lib prints for words that it does not take, and for --help."""
    status, printed, said = run([os.path.join(TOP, "lib"), *words])
    assert status == wanted
    assert text in printed + said


@pytest.fixture(scope="session")
def unproved(tmp_path_factory: pytest.TempPathFactory) -> str:
    """The library of `./lib --unproved`."""
    folder = str(tmp_path_factory.mktemp("unproved"))
    ended = run([f"{TOP}/lib", "--unproved", "--to", folder], seconds=10 * SECONDS)
    assert ended.status == 0, ended.said[-3000:]
    return folder


@pytest.mark.parametrize("name, flags", PROGRAMS, ids=NAMES)
def test_unproved_program(unproved: str, folder: str, name: str, flags: list[str]) -> None:
    """The programs over the unproved library do what those over the others do."""
    test_program(unproved, folder, name, flags)


def test_unproved(unproved: str, folder: str) -> None:
    """It says in each place what it is, it is made once, and ./install refuses it."""
    version = re.findall(r'NOG_VERSION_TEXT "(.*)"', text_of(HEADER))[0] + "-unproved"
    assert version in text_of(f"{unproved}/nogcuvema.h")
    assert version in text_of(f"{unproved}/nogcuvema.pc")
    assert version in run(["strings", "-a", f"{unproved}/libnogcuvema.a"]).out
    made = os.path.join(TOP, "build", "unproved", "nogcuvema.o")
    first = os.stat(made).st_mtime_ns
    assert "nothing is proved" in run([f"{TOP}/lib", "--unproved", "--to", unproved]).said
    assert os.stat(made).st_mtime_ns == first
    # a newer source of a crate that the library does not use compiles nothing
    own = ["nogcuvema", *all_below(graph(), "nogcuvema")]
    sources = [HEADER, f"{TOP}/crates.txt", f"{TOP}/tools/unproved_library",
               *(path for crate in own for path in glob.glob(f"{TOP}/crates/{crate}/src/*.rt"))]
    os.utime(made, (newest := max(os.stat(path).st_mtime for path in sources), newest))
    assert run([f"{TOP}/lib", "--unproved", "--to", unproved]).status == 0
    prefix = os.path.join(folder, "prefix")
    ended = run([f"{TOP}/install", "--library", unproved, "--prefix", prefix])
    assert ended.status == 125
    assert "is not proved" in ended.said
    assert not os.path.exists(prefix)
