#!/usr/bin/env python3
"""The model in tests/model builds with Debian 12's Rust, 1.63.

rust_version.py LIBRARY FOLDER [BIN]

With BIN, a folder with cargo and rustc of that version, the model is built by
them and checks itself.  That alone shows it.  So it is where the rustc of this
machine is of that version.

Where it is later:
- clippy finds what std has only since a later version, in build.rs too
  (incompatible_msrv, by the rust-version of Cargo.toml);
- later forms of the language, which clippy passes over, are looked for in the
  text.  LATER has those; another one is not found.

Then faults are planted in copies of the model, and each must be found.

CARGO names the cargo of this machine.  What is built goes to FOLDER.
"""

import os
import re
import shutil
import subprocess
import sys

ROOT = os.path.join(os.path.dirname(os.path.abspath(__file__)), "..", "..")
MODEL = os.path.join(ROOT, "tests", "model")
RUST = "1.63"
LOCK = 3  # the version of Cargo.lock that its cargo reads

# Forms, the version that brought them, and how they look.  Strings are "".
LATER = [
    ("let .. else", "1.65", r"[^}\s]\s*\belse\b"),
    ("an exclusive range pattern", "1.80",
     r"\.\.\s*[\w:]+\s*(?:=>|\|[^|]|\bif\b)"
     r"|\bmatches!\([^;{}]*,(?:(?!\bif\b)[^;{}\[])*\.\.\s*\w"
     r"|\blet\s+[^=;{}]*\.\.\s*\w[^=;{}]*="),
    ("a string of C", "1.77", r'\bc"'),
    ("a block of constants", "1.79", r"\bconst\s*\{"),
    ("an expected warning", "1.81", r"#!?\[expect\b"),
    ("a raw reference", "1.82", r"&raw\b"),
    ("an unsafe extern block", "1.82", r'\bunsafe\s+extern\s*""\s*\{'),
    ("captured lifetimes", "1.82", r"\buse<"),
]
TOKENS = re.compile(r'//[^\n]*|/\*.*?\*/|\b[bc]?r(#*)".*?"\1'
                    r'|\bc?b?"(?:\\.|[^"\\])*"|"(?:\\.|[^"\\])*"'
                    r"|'(?:\\[^\n']+|[^\\'\n])'", re.S)


def code_of(text):
    """The text without comments, its strings and characters empty."""
    def emptied(token):
        lines = "\n" * token.group().count("\n")
        if token.group().startswith("/"):
            return lines or " "
        return ('c""' if token.group().startswith("c") else '""') + lines
    return TOKENS.sub(emptied, text)


def read_texts(model):
    """The files that are looked at, by their paths."""
    names = ["Cargo.toml", "Cargo.lock", "build.rs"]
    names += sorted("src/" + name
                    for name in os.listdir(os.path.join(model, "src")))
    texts = {}
    for name in names:
        with open(os.path.join(model, name), encoding="utf-8") as file:
            texts[name] = file.read()
    return texts


def faults_in(texts):
    """What the texts tell."""
    faults = []
    if not re.search(r'^rust-version = "%s"$' % RUST, texts["Cargo.toml"],
                     re.M):
        faults.append('Cargo.toml does not say rust-version = "%s"' % RUST)
    lock = re.search(r"^version = (\d+)$", texts["Cargo.lock"], re.M)
    if lock is None or int(lock.group(1)) > LOCK:
        faults.append("Cargo.lock is not of version %d" % LOCK)
    for name, text in texts.items():
        if name.endswith(".rs"):
            code = code_of(text)
            for form, since, pattern in LATER:
                for found in re.finditer(pattern, code):
                    line = code.count("\n", 0, found.start()) + 1
                    faults.append("%s:%d: %s, since %s" % (name, line, form,
                                                           since))
    return faults


def ran(command, library, bin_folder=None):
    """Whether the command succeeds, and what it prints."""
    environment = dict(os.environ, GRIMHOLDI_LIBRARY=os.path.abspath(library))
    if bin_folder:
        environment.update(
            PATH=bin_folder + os.pathsep + environment["PATH"],
            RUSTC=os.path.join(bin_folder, "rustc"))
    try:
        done = subprocess.run(command, stdout=subprocess.PIPE, env=environment,
                              stderr=subprocess.STDOUT, text=True, check=False)
    except OSError as error:
        return False, str(error)
    return done.returncode == 0, done.stdout


def cargo_command(cargo, goal, model, folder):
    return cargo.split() + [goal, "--quiet", "--locked", "--manifest-path",
                            os.path.join(model, "Cargo.toml"), "--target-dir",
                            folder]


def is_old(version):
    return re.match(r"rustc %s\." % re.escape(RUST), version) is not None


def built(cargo, library, folder, bin_folder=None):
    """Builds the model and lets it check itself; what went wrong."""
    rustc = os.path.join(bin_folder, "rustc") if bin_folder else "rustc"
    version = ran([rustc, "--version"], library, bin_folder)[1].strip()
    if not is_old(version):
        return ["%s is not of version %s: %s" % (rustc, RUST, version)]
    holds, said = ran(cargo_command(cargo, "build", MODEL, folder)
                      + ["--release"], library, bin_folder)
    if not holds:
        return ["%s does not build the model\n%s" % (version, said)]
    holds, said = ran([os.path.join(folder, "release", "model"),
                       "--self-check"], library)
    if not holds:
        return ["built by %s, the model fails\n%s" % (version, said)]
    print("rust-version: %s builds the model; %s" % (
        version, said.splitlines()[-1]))
    return []


def linted(cargo, library, model, folder):
    """What clippy finds that std has only since a later version."""
    holds, said = ran(cargo_command(cargo, "clippy", model, folder)
                      + ["--", "-A", "clippy::all", "-D",
                         "clippy::incompatible_msrv"], library)
    return [] if holds else ["clippy refuses the model\n" + said]


# The self-test.

LATER_METHOD = "fn planted(a: Option<u8>) -> bool { a.is_some_and(|a| a > 1) }"
PLANTS = [
    ("no version", "Cargo.toml", r"rust-version.*", "",
     "Cargo.toml does not say "),
    ("a later version", "Cargo.toml", r'rust-version = ".*"',
     'rust-version = "1.95"', "Cargo.toml does not say "),
    ("a later lock file", "Cargo.lock", r"(?m)^version = \d+$", "version = 4",
     "Cargo.lock is not "),
]
# Lines of which each has the form.
FORMS = [
    ("let .. else", "let Some(a) = b else { return };"),
    ("let .. else", "let Some(a) = b\n    else {\n        return\n    };"),
    ("let .. else", "let [a, ..] = f(|b| { b }) else { return };"),
    ("an exclusive range pattern", "0..2 => 1,"),
    ("an exclusive range pattern", "..LAST => 1,"),
    ("an exclusive range pattern", "0..last::LAST | 9 => 1,"),
    ("an exclusive range pattern", "let b = matches!(a, 0..2);"),
    ("an exclusive range pattern", "if let 0..2 = a { f() }"),
    ("a string of C", 'f(c"a");'),
    ("a block of constants", "let a = const { 1 + 1 };"),
    ("an expected warning", "#[expect(unused)]"),
    ("a raw reference", "let a = &raw const b;"),
    ("an unsafe extern block", 'unsafe extern "C" {}'),
    ("captured lifetimes", "fn f() -> impl A + use<'a> { a }"),
]
# Lines that have none of them.
OLD_FORMS = [
    "let a = if b { c } else { d };",
    "let a = match b { Some(a) => a, None => return };",
    "0..=2 | 5.. => 1,",
    "let b = matches!(a, State(_, 1..));",
    "let b = matches!(a, State(c) if d[..c].iter().any(e));",
    "let [a, b @ ..] = c[..d];",
    'f("a else b", \'"\', "0..2 => c", b"c"); // let a = b else c',
    "for a in 0..b { c(a) }",
]


def planted_forms(texts):
    """How many lines are not seen as what they are."""
    missed = 0
    for form, line in FORMS + [(None, line) for line in OLD_FORMS]:
        copy = dict(texts)
        copy["src/main.rs"] += "\n" + line + "\n"
        found = faults_in(copy)
        if len(found) != (form is not None) or form and form not in found[0]:
            missed += 1
            print("rust-version: planted: %s\n  found: %s" % (line, found))
    return missed


def planted_texts(texts):
    missed = 0
    for name, path, old, new, expected in PLANTS:
        text, count = re.subn(old, new, texts[path])
        found = faults_in(dict(texts, **{path: text}))
        if count != 1 or not any(fault.startswith(expected)
                                 for fault in found):
            missed += 1
            print("rust-version: planted: %s\n  found: %s" % (name, found))
    return missed


def planted_methods(cargo, library, folder):
    """A later method in the model, and in build.rs, for clippy."""
    missed = 0
    for path in ("src/main.rs", "build.rs"):
        model = os.path.join(folder, "planted")
        shutil.rmtree(model, ignore_errors=True)
        shutil.copytree(MODEL, model)
        with open(os.path.join(model, path), "a", encoding="utf-8") as file:
            file.write("\n#[allow(dead_code)]\n" + LATER_METHOD + "\n")
        found = linted(cargo, library, model, os.path.join(folder, "clippy"))
        if not found or "stable since `1.70.0`" not in found[0]:
            missed += 1
            print("rust-version: planted: a later method in %s, not found; "
                  "clippy looks for it since 1.78\n%s" % (path,
                                                          "".join(found)))
    return missed


def main():
    if len(sys.argv) not in (3, 4):
        sys.exit("usage: rust_version.py LIBRARY FOLDER [BIN]")
    library, folder = sys.argv[1], os.path.abspath(sys.argv[2])
    bin_folder = os.path.abspath(sys.argv[3]) if len(sys.argv) > 3 else None
    cargo = os.environ.get("CARGO", "cargo")
    os.makedirs(folder, exist_ok=True)
    texts = read_texts(MODEL)
    faults = faults_in(texts)
    old = is_old(ran(["rustc", "--version"], library)[1])
    if bin_folder:
        faults += built(os.path.join(bin_folder, "cargo"), library,
                        os.path.join(folder, RUST), bin_folder)
    elif old:
        faults += built(cargo, library, os.path.join(folder, RUST))
    elif not ran(cargo.split() + ["clippy", "--version"], library)[0]:
        faults.append("there is no cargo clippy here; install it, or name a "
                      "folder with cargo and rustc %s: RUST_1_63=FOLDER"
                      % RUST)
    else:
        faults += linted(cargo, library, MODEL, os.path.join(folder, "clippy"))
    for fault in faults:
        print("rust-version: " + fault)
    if faults:
        print("rust-version: FAILED, %d faults" % len(faults))
        return 1
    missed = planted_forms(texts) + planted_texts(texts)
    if not (bin_folder or old):
        missed += planted_methods(cargo, library, folder)
    print("rust-version: %s, %s%s" % (
        "FAILED" if missed else "passed", RUST,
        "" if bin_folder or old else
        " by clippy and by the text; no rustc of that version was asked"))
    return missed != 0


if __name__ == "__main__":
    sys.exit(main())
