"""The kit, and the LLVM module that it lowers the proved program to: what tools/web and tools/arm make other programs of.

The module is kept, as text, in the file that LOWERED names, and taken from there where it is: so who makes both has the kit check and lower it once.
"""
import importlib, os, re, shutil, subprocess, sys, tempfile

TOP = os.path.dirname(os.path.dirname(os.path.realpath(__file__)))
RELEASED = f"{TOP}/released"
TARGET = "x86_64-unknown-linux-gnu"
# The first of its processors: what later ones have of vectors the kit's clang can't compile for wasm64.
CPU = "x86-64"
CALL = re.compile(r"declare .*?@([\w.]+)\(")


class Unproved(Exception):
    """The libraries of the program aren't there, or aren't of one making."""


def fail(why):
    sys.exit(f"{os.path.basename(sys.argv[0])}: {why}")


def ran(what, *words):
    done = subprocess.run(words, stdin=subprocess.DEVNULL, capture_output=True, text=True, errors="replace")
    if done.returncode:
        fail(f"{what} failed, with status {done.returncode}:\n{(done.stdout + done.stderr)[-3000:]}")
    return done.stdout


class Kit:
    """The kit's folder, and what is used of it."""

    def __init__(self):
        rt = shutil.which("rt")
        self.folder = os.environ.get("KIT") or rt and os.path.dirname(os.path.dirname(os.path.realpath(rt)))
        if not self.folder:
            fail("it needs the kit, as the folder KIT or `rt` in PATH (CONTRIBUTING, \"The kit\")")
        self.tools = f"{self.folder}/toolchain/bin"
        self.clang, self.linker = f"{self.tools}/clang", f"{self.tools}/ld.lld"
        for file in (f"{self.folder}/bin/rtlib.py", f"{self.folder}/bin/rattle", self.clang, self.linker):
            if not os.path.exists(file):
                fail(f"this kit has no {file}")

    def compiles_for(self, processor):
        if not re.search(rf"^ +{processor} ", ran("clang", self.clang, "--print-targets"), re.M):
            fail(f"{self.clang} doesn't compile for {processor}")

    def version(self):
        return ran("rt version", f"{self.folder}/bin/rt", "version").strip()

    def is_the_releases(self):
        """Whether it is the kit that made what stands in released/."""
        with open(f"{RELEASED}/kit", encoding="utf-8") as it:
            return self.version() == it.read().strip()

    def build_words(self):
        """What `rt` tells the compiler of the crate `ground`: where its proved libraries are."""
        sys.path.insert(0, f"{self.folder}/bin")
        sys.dont_write_bytecode = True
        os.chdir(f"{TOP}/crates/ground")
        try:
            lib = importlib.import_module("rtlib")
            crate = lib.Crate(os.getcwd(), lib.root_above(os.getcwd()), {})
            below = crate.below()
            stamps = [lib.text_of(f"{os.path.dirname(it.rlib)}/stamp") for it in below]
            lacking = [it.name for it in below if not os.path.isdir(it.rlib)]
            # `rt ci` leaves libraries without a stamp, all of one run; those that other commands left have one each, of their sources.
            old = [it.name for it, stamp in zip(below, stamps) if stamp != it.stamp()] if any(stamps) else []
            words, kept = crate.words(["--jobs", "2"]), lib.KEPT if any(stamps) else []
        except (AttributeError, TypeError) as why:
            fail(f"this kit's rt is another than the one that is known here: {why}")
        if lacking or old:
            raise Unproved(f"these crates aren't proved here as they are, which tools/build does: {' '.join(lacking or old)}")
        return words, kept


def keeping(kit, kept, folder):
    """A toolchain's folder: in the place of the kit's clang stands one that keeps the module that it is given, and compiles an empty one."""
    os.makedirs(f"{folder}/bin")
    os.symlink(f"{kit.folder}/toolchain/lib", f"{folder}/lib")
    for tool in os.listdir(kit.tools):
        if tool != "clang":
            os.symlink(f"{kit.tools}/{tool}", f"{folder}/bin/{tool}")
    with open(f"{folder}/bin/clang", "w", encoding="utf-8") as it:
        it.write(f"""#!/bin/sh
for it in "$@"; do case $it in *.bc)
    cp "$it" '{kept}' && : >"$it.ll" && '{kit.clang}' --target={TARGET} -Wno-override-module -c -emit-llvm -x ir "$it.ll" -o "$it" ;;
esac done
exec '{kit.clang}' "$@"
""")
    os.chmod(f"{folder}/bin/clang", 0o755)
    return folder


def built(kit, folder, out):
    """Has the kit check the program, and lower it by the toolchain of this folder."""
    words, kept = kit.build_words()
    more = ["--target", TARGET, "--cpu", CPU, "--backend", "llvm", "--toolchain", folder, "-o", out]
    ran("the check of ground, or its build,", f"{kit.folder}/bin/rattle", "build", *words, *kept, *more)


def made_by(kit, text):
    """Writes the module of the proved program, as text, which the kit checks and lowers."""
    with tempfile.TemporaryDirectory() as work:
        module = f"{work}/kept.bc"
        built(kit, keeping(kit, module, f"{work}/toolchain"), f"{work}/none.o")
        if not os.path.exists(module):
            fail("this kit hands its clang no module")
        ran("clang", kit.clang, f"--target={TARGET}", "-x", "ir", module, "-S", "-emit-llvm", "-O0", "-Xclang", "-disable-llvm-passes", "-o", f"{text}.new")
    os.replace(f"{text}.new", text)


def lowered(kit, work):
    """Where the module of the proved program is, as text."""
    text = os.environ.get("LOWERED") or f"{work}/lowered.ll"
    if not os.path.exists(text):
        made_by(kit, text)
    return text


def layout(kit, work, triple):
    """How a target lays values out, as a line of a module."""
    with open(f"{work}/none.c", "w", encoding="utf-8") as it:
        it.write("int none;\n")
    text = ran("clang", kit.clang, f"--target={triple}", "--no-default-config", "-S", "-emit-llvm", "-o", "-", f"{work}/none.c")
    return re.search(r"^target datalayout = .*\n", text, re.M)[0]


def retargeted(text, to, triple, line, attributes, entry="main"):
    """Writes the module for another target: its layout, its triple and its attributes are others, and so may be the name of `main`. It answers
    which C functions it calls."""
    calls, mains = set(), 0
    with open(text, encoding="utf-8") as old, open(to, "w", encoding="utf-8") as new:
        for it in old:
            if it.startswith("target datalayout"):
                it = line
            elif it.startswith("target triple"):
                it = f'target triple = "{triple}"\n'
            elif it.startswith("attributes #"):
                it = attributes(it)
            elif it.startswith("define") and "@main(" in it:
                it, mains = it.replace("@main(", f"@{entry}("), mains + 1
            elif it.startswith("declare"):
                calls.add(CALL.match(it)[1])
            new.write(it)
    if mains != 1:
        fail(f"the module of the program has {mains} functions `main`")
    return {it for it in calls if not it.startswith("llvm.")}
