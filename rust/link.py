"""How a Rust program is built over our archives and the oracle, on x86-64 and on Arm.

Used by rust/differential and bench/run. Standard library only.
"""

import hashlib
import os
import platform
import re
import shutil
import subprocess
import sys

ROOT = os.path.dirname(os.path.dirname(os.path.abspath(__file__)))
TARGET = os.path.join(ROOT, "target")

# The processor that `rt lib` and `rt run` make code for. What is made of our side takes the processor that it is made for, this one unless
# another is named; for another bench/native-archive makes it. What is for Arm here was not run with today's kit, for want of an Arm machine
# or an emulator: its archives were made on x86-64, and their code was read.
OURS = "x86_64"

# Exports that stand in a crate of their own, above the library that they are the face of. Its archive has that library's name.
FACE_OF = {"probe_picture_c": "probe_picture"}


def exporting():
    """The crates that export C functions, and those whose structs they hand over: `capi`, the published face, and each `probe_NAME`,
    for tests alone."""
    names = sorted(os.listdir(os.path.join(ROOT, "crates")))
    return [n for n in names if n == "capi" or n.startswith("probe_")]


def die(text):
    print(text, file=sys.stderr)
    sys.exit(2)


def need(tool, why):
    if shutil.which(tool) is None:
        die(f"'{tool}' is missing: {why}")


def here():
    """The processor of this machine, by the name that compilers have for it."""
    found = {"arm64": "aarch64"}.get(platform.machine(), platform.machine())
    if found not in (OURS, "aarch64"):
        die(f"this machine is {found}: the toolchain knows {OURS} and aarch64")
    return found


def runner(machine):
    """The words that run a program made for a processor: none for this machine's, else those of the emulator."""
    return [] if machine == here() else [f"qemu-{machine}"]


def call(words, **more):
    done = subprocess.run(words, **more)
    if done.returncode != 0:
        die("failed: " + " ".join(words))
    return done


# ---- exports


SCALAR = r"(?:[ui](?:8|16|32|64|size)|f32|f64|bool)"


def source(crate):
    """All source of a crate."""
    folder = os.path.join(ROOT, "crates", crate, "src")
    names = sorted(os.listdir(folder), key=lambda n: (n != "lib.rt", n)) if os.path.isdir(folder) else []
    texts = []
    for name in names:
        if name.endswith(".rt"):
            with open(os.path.join(folder, name), encoding="utf-8") as f:
                texts.append(f.read())
    return "\n".join(texts)


EXPORT = re.compile(r'((?:^//[^\n]*\n)*)#\[unsafe\(no_mangle\)\]\s*pub extern "C" fn (\w+)\s*\(([^)]*)\)\s*(?:->\s*([^\s{]+))?', re.M)


def told(comments):
    """The text of comment lines."""
    return " ".join(line[2:].strip() for line in comments.splitlines())


def documented(crate):
    """The functions that a crate exports, each with its comment, read from its source: the one place that declares them."""
    found = []
    for m in EXPORT.finditer(source(crate)):
        args = []
        for arg in filter(None, (a.strip() for a in re.sub(r"//[^\n]*", "", m.group(3)).split(","))):
            name, kind = (part.strip() for part in arg.split(":", 1))
            args.append((name, kind))
        found.append(((m.group(2), args, m.group(4)), told(m.group(1))))
    return found


def exports(crate):
    return [e for e, _ in documented(crate)]


STRUCT = re.compile(r"((?:^//[^\n]*\n)*)#\[repr\(C\)\]\s*(?:#\[derive\([^)]*\)\]\s*)?pub struct (\w+) \{([^}]*)\}", re.M)


def structs(crate):
    """The `#[repr(C)]` structs of a crate, as Rust."""
    return {m.group(2): f"#[derive(Clone, Copy, Debug, PartialEq)]\n#[repr(C)]\npub struct {m.group(2)} {{{m.group(3)}}}" for m in STRUCT.finditer(source(crate))}


def bound(export, known):
    """The C declaration of an export, and a safe Rust function over it."""
    name, args, result = export
    declared, taken, handed = [], [], []
    for arg, kind in args:
        part = re.fullmatch(rf"&(mut )?\[({SCALAR})\]", kind)
        one = re.fullmatch(rf"&(mut )?(\[{SCALAR}; \w+\]|{SCALAR})", kind)
        taken.append(f"{arg}: {kind}")
        if part:
            pointer = "*mut" if part.group(1) else "*const"
            declared += [f"{arg}: {pointer} {part.group(2)}", f"{arg}_count: usize"]
            handed += [f"{arg}.as_mut_ptr()" if part.group(1) else f"{arg}.as_ptr()", f"{arg}.len()"]
        elif one:
            pointer = "*mut" if one.group(1) else "*const"
            declared.append(f"{arg}: {pointer} {one.group(2)}")
            handed.append(arg)
        elif re.fullmatch(SCALAR, kind) or kind in known:
            declared.append(f"{arg}: {kind}")
            handed.append(arg)
        else:
            die(f"the export {name} has a parameter of the type {kind}, which rust/link.py does not know")
    back = f" -> {result}" if result else ""
    return (
        f"    pub fn {name}({', '.join(declared)}){back};",
        f"#[inline]\npub fn {name}({', '.join(taken)}){back} {{\n    unsafe {{ c::{name}({', '.join(handed)}) }}\n}}\n",
    )


def write(path, text):
    os.makedirs(os.path.dirname(path), exist_ok=True)
    if not os.path.exists(path) or open(path, encoding="utf-8").read() != text:
        with open(path, "w", encoding="utf-8") as f:
            f.write(text)


def module(crates, head):
    """A Rust module with the exports of crates: the declarations, and a safe function over each."""
    known = {name: text for crate in crates for name, text in structs(crate).items()}
    pairs = [(bound(e, known), comment) for crate in crates for e, comment in documented(crate)]
    declared = "\n".join(p[0] for p, _ in pairs)
    safe = "\n".join((f"/// {comment}\n" if comment else "") + p[1] for p, comment in pairs)
    return (
        head
        + "".join(text + "\n\n" for text in known.values())
        + f"mod c {{\n    use super::*;\n    unsafe extern \"C\" {{\n{declared}\n    }}\n}}\n\n{safe}"
    )


def bindings(path):
    """Writes the Rust module `ours` over our code, and answers the names in it. It is the same for each processor."""
    head = (
        "// Made by rust/link.py from the sources of the exporting crates.\n"
        "#![allow(dead_code)]\n"
        "#![allow(unused_imports)]\n"
        "#![allow(clippy::too_many_arguments)]\n\n"
    )
    write(path, module(exporting(), head))
    return {e[0] for crate in exporting() for e in exports(crate)}


C = {"u8": "uint8_t", "u16": "uint16_t", "u32": "uint32_t", "u64": "uint64_t", "usize": "size_t", "i8": "int8_t", "i16": "int16_t", "i32": "int32_t", "i64": "int64_t", "f32": "float", "f64": "double", "bool": "bool"}


def header(crate):
    """The C header of a crate's exports."""
    text = [f"/* Made by `rust/check --write` from the source of the crate `{crate}`: not to be edited.", " * A slice is a pointer and the number of its elements; with 0 elements the pointer is not read. */", "#ifndef SILLBADGER_H", "#define SILLBADGER_H", "", "#include <stdbool.h>", "#include <stddef.h>", "#include <stdint.h>", "", "#ifdef __cplusplus", 'extern "C" {', "#endif", ""]
    known = []
    for m in STRUCT.finditer(source(crate)):
        fields = re.findall(r"pub (\w+): (\w+),", m.group(3))
        known.append(m.group(2))
        text += [f"/* {told(m.group(1))} */", f"typedef struct {m.group(2)} {{", *[f"    {C[kind]} {name};" for name, kind in fields], f"}} {m.group(2)};", ""]
    for (name, args, result), comment in documented(crate):
        parts = []
        for arg, kind in args:
            part = re.fullmatch(rf"&(mut )?\[({SCALAR})\]", kind)
            if part:
                parts += [f"{'' if part.group(1) else 'const '}{C[part.group(2)]} *{arg}", f"size_t {arg}_count"]
            else:
                parts.append(f"{C.get(kind, kind)} {arg}")
        back = C.get(result, result) if result else "void"
        text += ([f"/* {comment} */"] if comment else []) + [f"{back} {name}({', '.join(parts)});", ""]
    text += ["#ifdef __cplusplus", "}", "#endif", "", "#endif", ""]
    return "\n".join(text)


def below():
    """Each crate's own dependencies, from crates.txt. After a crate's name its kind may stand there."""
    found = {}
    with open(os.path.join(ROOT, "crates.txt"), encoding="utf-8") as f:
        for line in f:
            name, colon, rest = line.split("#")[0].partition(":")
            if colon:
                found[name.split()[0]] = rest.split()
    return found


def digest(crate):
    """What a crate's archive is made of: the toolchain, and every file of the crate and of the crates below it."""
    deps, wanted = below(), [crate]
    for name in wanted:
        wanted += [d for d in deps.get(name, []) if d in deps and d not in wanted]
    sum = hashlib.sha256(subprocess.run(["rt", "version"], stdout=subprocess.PIPE).stdout)
    for name in sorted(wanted):
        for part in ("src", "specs", "proofs"):
            for folder, folders, files in os.walk(os.path.join(ROOT, "crates", name, part)):
                folders.sort()
                for file in sorted(files):
                    path = os.path.join(folder, file)
                    with open(path, "rb") as f:
                        sum.update(path[len(ROOT):].encode() + b"\0" + f.read() + b"\0")
    return sum.hexdigest()


def made(archive, now):
    """Whether an archive was made of what there is now."""
    try:
        with open(archive + ".of", encoding="utf-8") as f:
            return os.path.exists(archive) and f.read() == now
    except OSError:
        return False


def compiled(name, out, machine):
    """Proves a crate and compiles it for another processor."""
    call(["sh", os.path.join(ROOT, "bench", "native-archive"), name, out, machine], cwd=ROOT)


def archives(machine=OURS, only=None):
    """Proves and archives the exporting crates, or one of them, for a processor; answers the linker's words."""
    need("rt", "the Rattle toolchain proves and archives our side")
    words = []
    where = os.path.dirname(archive("capi", machine))
    os.makedirs(where, exist_ok=True)
    for crate in exporting():
        if not exports(crate) or only not in (None, crate):
            continue
        out = archive(crate, machine)
        now = digest(crate)
        if not made(out, now):
            if machine == OURS:
                folder = os.path.join(ROOT, "crates", crate)
                done = subprocess.run(["rt", "lib"], cwd=folder, stdin=subprocess.DEVNULL, stdout=subprocess.PIPE, stderr=subprocess.STDOUT, text=True)
                if done.returncode != 0:
                    die(done.stdout + f"rt lib in crates/{crate} failed")
                shutil.copyfile(os.path.join(folder, "out", f"lib{crate}.a"), out)
            else:
                compiled(crate, out, machine)
            write(out + ".of", now)
        words += ["-L", f"native={where}", "-l", f"static={FACE_OF.get(crate, crate)}"]
    return words


def archive(crate, machine=OURS):
    """Where `archives` puts the archive of a crate."""
    return os.path.join(TARGET, "staticlib" if machine == OURS else machine, f"lib{FACE_OF.get(crate, crate)}.a")


def program(name, machine=OURS):
    """Proves and builds a program of ours for a processor; answers the words that run it."""
    need("rt", "the Rattle toolchain proves and builds our programs")
    if machine != OURS:
        out = os.path.join(TARGET, machine, name)
        now = digest(name)
        if not made(out, now):
            os.makedirs(os.path.dirname(out), exist_ok=True)
            compiled(name, out, machine)
            write(out + ".of", now)
        return [*runner(machine), out]
    # `rt run` runs it once, here with no input. Where another processor cannot run it, that it was built is told all the same.
    folder = os.path.join(ROOT, "crates", name)
    done = subprocess.run(["rt", "run"], cwd=folder, stdin=subprocess.DEVNULL, stdout=subprocess.PIPE, stderr=subprocess.STDOUT, text=True, errors="replace")
    if done.returncode != 0 and (here() == OURS or not re.search(r"^rt: running out/", done.stdout, re.M)):
        die(done.stdout + f"rt run in crates/{name} failed")
    return [*runner(machine), os.path.join(folder, "out", name)]


# ---- Rust


class Rust:
    """A compiler of programs for a processor, and what runs them."""

    def __init__(self, machine=OURS):
        self.words, self.runner = [], runner(machine)
        if machine == here():
            self.rustc, self.cc, self.out = os.environ.get("RUSTC", "rustc"), os.environ.get("CC", "cc"), "native"
            need(self.rustc, "a Rust compiler builds the oracle (or set RUSTC)")
            need("cc", "rustc links with it")
            return
        # Debian's rustc-web can have a library for the other processor; the machine's own rustc has none.
        listed = subprocess.run(["dpkg", "-L", "rustc-web"], capture_output=True, text=True) if shutil.which("dpkg") else None
        found = [l for l in listed.stdout.splitlines() if l.endswith("/bin/rustc")] if listed else []
        self.rustc, self.cc, self.out = os.environ.get("RUSTC") or (found[0] if found else None), f"{machine}-linux-gnu-gcc", machine
        setup = "On Debian run rust/setup-cross, as root"
        if self.rustc is None:
            die(f"this machine is {here()}: no rustc for {machine} here (or set RUSTC). {setup}")
        need(self.cc, f"it links {machine} programs. {setup}")
        need(self.runner[0], f"it runs {machine} programs. {setup}")
        self.words = ["--target", f"{machine}-unknown-linux-gnu", "-C", f"linker={self.cc}"]

    def oracle(self):
        """Builds the oracle; answers its folder, which has fast/ and checked/."""
        out = os.path.join(TARGET, "oracle") + ("" if self.out == "native" else "-" + self.out)
        env = dict(os.environ, RUSTC=self.rustc, RUSTFLAGS=" ".join(self.words), OUT=out)
        call([os.path.join(ROOT, "oracle", "build")], env=env)
        return out

    def program(self, main, out, flags, oracle, link):
        os.makedirs(os.path.dirname(out), exist_ok=True)
        call(
            [self.rustc, "--edition", "2021", *self.words, *flags, main, "-o", out, "--extern", f"oracle={oracle}/liboracle.rlib", *link]
        )

    def start(self, program, words):
        return subprocess.Popen([*self.runner, program, *words], stdout=subprocess.PIPE, text=True)


FLAGS = {"fast": ["-O"], "checked": ["-O", "-C", "overflow-checks=yes"]}


def modules(folder, names):
    """The `mod` lines for Rust files, by their own paths."""
    return "\n".join(f'#[path = "{os.path.join(folder, n + ".rs")}"]\nmod {n};' for n in names)


def sorted_by_needs(folder, mark, have):
    """The Rust files of a folder: those without the mark, those that can run, and those that wait for exports."""
    support, ready, waiting = [], [], []
    for file in sorted(f for f in os.listdir(folder) if f.endswith(".rs")):
        with open(os.path.join(folder, file), encoding="utf-8") as f:
            text = f.read()
        name = file[: -len(".rs")]
        missing = [w for w in " ".join(re.findall(r"^//! Needs:(.*)$", text, re.M)).split() if w not in have]
        if mark not in text:
            support.append(name)
        elif missing:
            waiting.append((name, missing))
        else:
            ready.append(name)
    return support, ready, waiting
