"""What the gate and the launcher take of Rattle's kit. All that they know of it stands here.

The kit's command `rt` is a program in Python, with the module `rtlib` beside it. They are loaded from where `rt` is found, so that a
crate is read, proved, judged, linked and run here by the very code that `rt ci` uses. One thing differs: a proof keeps its work in the
crate's `out/`, so that mutants and tests are checked over what this very run has proved. The verdict line then ends in the words
`incremental=trusted`, which `rt ci` doesn't take, and which are taken here.
"""
import contextlib
import importlib.machinery
import importlib.util
import inspect
import io
import os
import re
import shutil
import subprocess
import sys
import tempfile

HERE = os.path.dirname(os.path.realpath(__file__))
# The repository: this one, or another that a test of these tools made.
ROOT = os.environ.get("GATE_ROOT") or os.path.dirname(HERE)


def load(path, name):
    loader = importlib.machinery.SourceFileLoader(name, path)
    made = importlib.util.module_from_spec(importlib.util.spec_from_loader(name, loader))
    sys.modules[name] = made
    loader.exec_module(made)
    return made


def find():
    """The kit's `rt`, as a module."""
    found = shutil.which("rt")
    if not found:
        sys.exit("Rattle's command rt is not on the PATH")
    return load(os.path.realpath(found), "rt")


rt = find()
rtlib = rt.rtlib
# A verdict over what this run has kept.
rtlib.VERDICT = re.compile(rtlib.VERDICT.pattern.replace(r"\n\Z", r"( incremental=trusted)?\n\Z"), re.M)
KEPT = rtlib.KEPT
ONE_JOB = ["--jobs", "1"]
# What a kit's `must_fail` answers where the edit is refused: rattle-kit-13b has True.
REFUSED = getattr(rt, "REFUSED", True)
# Whether the kit's own reading of the crates moves each out/ aside, as that of rattle-kit-13b does.
MOVES_OUT = "aside" in inspect.signature(rt.crates_of).parameters
# The words of the kit's own gate that takes over nothing.
FROM_NOTHING = ["ci"] if MOVES_OUT else ["ci", "--anew"]
# How often the kit may meet a file that isn't there any more.
TRIES = 20
# The stamps of the crates, by their folders. The kit goes down each path that leads to a crate, of which there are thousands.
STAMPS = {}


def once(stamp):
    """A crate's stamp, which is made of its files' bytes and of the stamps below it, made once."""

    def found(crate):
        if crate.folder not in STAMPS:
            STAMPS[crate.folder] = stamp(crate)
        return STAMPS[crate.folder]

    return found


rtlib.Crate.stamp = once(rtlib.Crate.stamp)


def plain_crates_of(root):
    """The crates as crates.txt and their folders have them."""
    rtlib.Crate = rt.Crate
    return rtlib.crates_below(root)


def crates_of(root):
    """The kit's reading of the crates, which leaves each out/ where it is. What a kit that moves them refuses beside is in `stray_fault`."""
    if not MOVES_OUT:
        return rt.crates_of(root)
    found = plain_crates_of(root)
    names = [it.name for it in found]
    for it in found:
        if os.path.dirname(it.folder) != f"{root}/crates" or names.count(it.name) > 1 or it.name in rt.TAKEN:
            rtlib.stop(f"{it.folder}: a crate is a folder crates/NAME, of a name of its own")
    return sorted(found, key=lambda it: len(it.below()))


def enter(root):
    """Goes to the repository, and sets the kit up for it."""
    os.chdir(root)
    # Its first call sets a signal's handler, which only the main thread may.
    rtlib.guarded()
    rt.Crate.allowed = rt.handles_of(root)
    rt.Crate.cuts_libraries = False


def crates(root=ROOT):
    """The crates of crates.txt, lowest first; it ends the program where the folder isn't as the kit wants it."""
    enter(root)
    for _ in range(TRIES):
        found = []
        why = refusal_of(lambda: found.extend(crates_of(root)))
        if why is None:
            return found
        if not is_of_the_past(why, root):
            break
    return crates_of(root)


def is_of_the_past(why, root):
    """Whether all that the kit refuses was gone a moment later. It looks at every file of the crates, those too that other commands of the
    same gate keep in out/ under a name for the time of writing."""
    named = [re.fullmatch(r"(?:rt: )?(\S+) is no plain file or folder: remove it", it) for it in why.split("; ")]
    return all(it and not os.path.lexists(f"{root}/{it[1]}") for it in named)


def named(name, root=ROOT):
    """The crate of a name. Whether the folder is as the kit wants it, is the gate's to see, once: it takes a look at every file that is
    there, and each out/ has thousands."""
    enter(root)
    for crate in plain_crates_of(root):
        if crate.name == name:
            return crate
    sys.exit(f"crates.txt has no crate {name}")


def prove(crate, jobs):
    """Proves a library or a program over what stands in its out/, and builds a library; 0 where all is well."""
    words = [*crate.words(["--jobs", str(jobs)], keeps=False), *KEPT]
    if crate.is_program:
        return crate.prove(["check", *words])
    # The stamp has other commands take the library as built.
    stamp, kept = crate.stamp(), f"{crate.folder}/out/rlib/stamp"
    shutil.rmtree(os.path.dirname(kept), ignore_errors=True)
    os.makedirs(os.path.dirname(kept))
    status = crate.prove(["build", *words, "-o", crate.rlib])
    STAMPS.clear()
    if status == 0 and stamp == crate.stamp():
        with open(kept, "w", encoding="utf-8") as it:
            it.write(stamp)
    return status


def link_or_copy(file, to):
    """A second name of a file, or a copy where that lies on another file system."""
    try:
        os.link(file, to)
    except OSError:
        shutil.copy2(file, to)


@contextlib.contextmanager
def copy_of_kept(crate):
    """The folder of a copy of what the crate's own proof kept, which no other command changes."""
    with tempfile.TemporaryDirectory(prefix=f"rt-edit-{os.getpid()}-") as room:
        # A link a file: rattle writes each under another name, and renames it then.
        shutil.copytree(f"{crate.folder}/{KEPT[1]}", f"{room}/kept", copy_function=link_or_copy)
        yield f"{room}/kept"


def checked(crate, texts, kept, tell=None):
    """Checks a copy of the crate with these texts in place of its own, over what `kept` has. It is a build, since a check goes on to write
    down how each proof that failed could begin; but only a check tells, line by line, when it ends with a function."""
    with tempfile.TemporaryDirectory(prefix="rt-edit-") as room:
        for part in rtlib.PARTS:
            if os.path.isdir(f"{crate.folder}/{part}"):
                shutil.copytree(f"{crate.folder}/{part}", f"{room}/{part}")
        for path, text in texts.items():
            os.makedirs(os.path.dirname(f"{room}/{path}"), exist_ok=True)
            with open(f"{room}/{path}", "w", encoding="utf-8") as it:
                it.write(text)
        words = [*crate.words(ONE_JOB, keeps=False), KEPT[0], kept]
        how = {"cwd": room, "stdin": subprocess.DEVNULL, "stdout": subprocess.PIPE, "stderr": subprocess.STDOUT, "errors": "replace", "text": True}
        if tell:
            return told([*rtlib.guarded(), rtlib.RATTLE, "check", "--progress", *words], how, tell)
        words += ["-o", f"{room}/built"]
        if crate.is_program:
            words += ["--toolchain", f"{rtlib.KIT}/toolchain", "--backend", "rattle"]
        return subprocess.run([*rtlib.guarded(), rtlib.RATTLE, "build", *words], **how)


def told(words, how, tell):
    """Runs a command, and tells each line as it comes."""
    lines = []
    with subprocess.Popen(words, **how) as ran:
        for line in ran.stdout:
            lines.append(line)
            tell(line)
    return subprocess.CompletedProcess(words, ran.returncode, "".join(lines))


def prove_and_build(crate, jobs):
    """Proves a program over what stands in its out/, and builds it by LLVM."""
    return build(crate, [*crate.words(["--jobs", str(jobs)], keeps=False), *KEPT], "llvm", f"out/{crate.name}")


def build_by(crate, backend):
    """Builds a proved program by a compiler, over what its proof kept."""
    with copy_of_kept(crate) as kept:
        return compile_by(crate, [*crate.words(ONE_JOB, keeps=False), KEPT[0], kept], backend, f"out/{crate.name}{rt.BACKENDS[backend]}")


def prove_tests(crate, jobs):
    """Proves the crate's tests, over what its own proof kept, and builds them by Rattle's own compiler, which is far faster than LLVM."""
    with copy_of_kept(crate) as kept:
        own = lambda flags: [*crate.words(flags, tests=True, keeps=False), KEPT[0], kept]
        return crate.prove(["check", *own(["--jobs", str(jobs)])]) or compile_by(crate, own(ONE_JOB), "rattle", f"out/{crate.name}_tests")


def compile_by(crate, words, backend, to):
    """Compiles and links what was proved and judged. Its verdict is another's, and a compiler says more behind it."""
    toolchain = ["--toolchain", f"{rtlib.KIT}/toolchain", "--backend", backend]
    return crate.call(rtlib.RATTLE, "build", *words, *toolchain, "-o", f"{to}.o") or crate.link(f"{to}.o", to)


def build(crate, words, backend, to):
    """Proves, compiles and links a program."""
    toolchain = ["--toolchain", f"{rtlib.KIT}/toolchain", "--backend", backend]
    return crate.prove(["build", *words, *toolchain, "-o", f"{to}.o"]) or crate.link(f"{to}.o", to)


def refusal_of(call):
    """What the kit says where it stops the program in a call, or None."""
    said = io.StringIO()
    stderr, sys.stderr = sys.stderr, said
    try:
        call()
    except SystemExit:
        return said.getvalue().strip() or "it is refused"
    finally:
        sys.stderr = stderr
    return None


def stray_fault(every):
    """Why a file outside the crates is refused, if one is: a source that no check reads."""
    for name in sorted(os.listdir(ROOT)):
        if os.path.isdir(f"{ROOT}/{name}") and name != ".git":
            why = refusal_of(lambda at=f"{ROOT}/{name}": rtlib.stop_on_unread(at, every))
            if why:
                return why
        elif name.endswith((".rt", ".antt")):
            return f"no check reads {name}"
    return None


def text_fault(crate, every):
    """Why the crate's text is refused before any proof, if it is, by the rules of `rt ci`."""

    def looked():
        rtlib.stop_on_links(crate.folder)
        rtlib.stop_on_unread(crate.folder, every)
        rtlib.stop_on_text(crate, "verdict")
        rt.stop_on_words(crate)

    why = refusal_of(looked)
    if why:
        return why
    code = rtlib.code_of(crate.folder)
    beyond = [it for it, words in rt.REACHES.items() if it not in crate.allowed and re.search(words, code)]
    if beyond:
        return f"it names what only the handle {beyond[0]} reaches"
    if re.search(rt.RENAMES, code):
        return "it renames std, or takes it whole"
    if re.search(rt.IGNORED, code):
        return "it has a test under #[ignore]"
    with tempfile.TemporaryFile("w+") as out:
        if rtlib.fmt(crate.folder, "--check", out):
            out.seek(0)
            return f"rt fmt lays it out otherwise: {out.read().strip()[:300]}"
    return None
