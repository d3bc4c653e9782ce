#!/usr/bin/env python3
"""bodies.py [--copies] [--minutes N] [CRATE..]: tries each wrong body of crates/NAME/must-fail/bodies.md, of all crates by default.

A wrong body passes if the prover refuses the function that it changes, with this body alone in this
function. One check of a crate, in a copy, tries many bodies, since the contract of a function hides its body
from all others. The first body of a function changes the function. For each further one the copy has the
function once more, under another name, with the same proof. Bodies of a function that cannot stand twice,
such as a method of a trait or one that the page names so, are tried in further checks (rounds). Refused means that a goal stays open. If
the prover could not tell, or if it has no proof to look at, the body fails. --copies tests that each of those
copies is proved if the body is not put into it. After N minutes no further check begins; the last line says how many
bodies were then left.

A body may be refused only because a proof names a goal that the edit has renamed. That shows little of the
contract. The script lists these bodies. It allows at most MOST_BY_NAME of them, and none that
docs/PROMISES.md names.

The libraries below a crate must be built (`rt ci` leaves them in out/; `rt lib` builds them too). Prints a
line for each crate, with its processor seconds, and ends with the number of bodies that passed and failed.
"""
import os
import re
import shutil
import subprocess
import sys
import tempfile
import time
from concurrent.futures import ThreadPoolExecutor
from pathlib import Path

ROOT = Path(__file__).resolve().parents[1]
MOST_BY_NAME = 30
HEAD = re.compile(r"(\s*)(?:pub(?:\([a-z]+\))?\s+)?(?:unsafe\s+)?(?:extern\s+\"C\"\s+)?fn\s+(\w+)")
OWNER = re.compile(r"(?:pub\s+)?(?:impl|trait)\b.*")
VERDICT = re.compile(r"fn (\S+): (proved|not proved|no proof|could not tell|assumed)(.*)")
# What the prover says of a proof that names what an edit has renamed or taken away.
NAMES = re.compile(r"is not in scope|has no field|has no `|exports no such name|was not admitted|is no name|cannot be named|no goal")
ERROR = re.compile(r"(?:\./)?proofs/(\S+)\.antt:\d+:\d+: error: (.*)")
OPEN = re.compile(r"(?:note: )?src/\S+: (it is not proved .*)")


class Body:
    """A wrong body: its name, its edits (file, old text, new text), the functions that it changes, and those
    that must be refused: the same, or the one that a line `fn: NAME` names. An edit outside of functions
    can change all of them, so such a body is tried alone."""

    def __init__(self, name):
        self.name, self.edits, self.named = name, [], set()

    def find_functions(self, crate):
        self.changed = {function_at(crate, file, old) for file, old, _ in self.edits}
        self.is_alone = "" in self.changed
        self.refused = self.named or self.changed
        if "" in self.refused:
            sys.exit(f"{crate.name}: {self.name} changes what is outside of functions: a line `fn: NAME` says which is refused")


def bodies_of(crate):
    """The bodies of a crate's page. A body begins with a line `# name`."""
    bodies, file, old = [], "", ""
    for line in (crate / "must-fail/bodies.md").read_text(encoding="utf-8").splitlines():
        if re.fullmatch(r"# [a-z0-9_]+", line):
            bodies.append(Body(line[2:]))
        elif line.startswith("fn: "):
            bodies[-1].named.add(line.removeprefix("fn: "))
        elif line.startswith("file: "):
            file = line.removeprefix("file: ")
        elif line.startswith("old: "):
            old = line.removeprefix("old: ")
        elif line.startswith("new:"):
            bodies[-1].edits.append((file, old, line.removeprefix("new:").removeprefix(" ")))
    for body in bodies:
        body.find_functions(crate)
    return bodies


def function_at(crate, file, old):
    """The end of the name by which the prover calls the function around a text: `Type::function` or
    `module::function`, or nothing if the text is outside of functions."""
    text = (crate / file).read_text(encoding="utf-8")
    place = text.find(old)
    lines = text[: place + len(old.rstrip())].splitlines()
    heads = [(number, HEAD.match(line)) for number, line in enumerate(lines) if HEAD.match(line)]
    if place < 0 or not heads or file.startswith("specs/"):
        return ""
    number, head = heads[-1]
    if any(line.startswith("}") or head[1] and line.startswith("    }") for line in lines[number:-1]):
        return ""
    if head[1]:
        owner = next(line for line in reversed(lines[:number]) if OWNER.match(line))
        return f"{name_of(owner)}::{head[2]}"
    module = Path(file).stem
    return head[2] if module in ("lib", "main") else f"{module}::{head[2]}"


def name_of(owner):
    """The prover's name of an `impl` or a trait: the type, followed by the trait that it implements."""
    head = re.sub(r"^(?:pub\s+)?(?:impl|trait)\b|\s*(?:\{|\bwhere\b).*|&(?:'\w+ )?(?:mut )?", "", owner)
    parameters = set()
    if head.startswith("<"):
        depths = [head[: place + 1].count("<") - head[: place + 1].count(">") for place in range(len(head))]
        end = depths.index(0)
        parameters = set(re.findall(r"[<,]\s*(?:const\s+)?(\w+)", head[:end]))
        head = head[end + 1 :]
    trait, _, kind = head.strip().partition(" for ")
    last = lambda path: re.sub(r"<.*", "", path).split("::")[-1].split(":")[0].strip()
    if not kind:
        return last(trait)
    of = "".join(word for word in re.findall(r"\w+", re.sub(r"^[^<]*", "", trait)) if word not in parameters)
    return last(kind) + ("" if last(trait) == "Drop" else last(trait) + of)


def edited(crate, texts, edits):
    """The texts with these edits, or None if an old text does not stand exactly once."""
    texts = dict(texts)
    for file, old, new in edits:
        text = texts.get(file) or (crate / file).read_text(encoding="utf-8")
        if text.count(old) != 1:
            return None
        texts[file] = text.replace(old, new)
    return texts


class Copy:
    """A body's function under another name, `refused`, and its proof: what the body changes is changed in it."""

    def __init__(self, crate, body, number):
        (self.file,) = {file for file, _, _ in body.edits}
        (function,) = body.changed
        owner, _, self.name = function.rpartition("::")
        text = (crate / self.file).read_text(encoding="utf-8")
        start, end, indent = place_of(text, self.name)
        self.true = self.text = text[start:end].replace(f"fn {self.name}", f"fn {self.name}__{number}", 1)
        for _, old, new in body.edits:
            if self.text.count(old) != 1:
                raise ValueError
            self.text = self.text.replace(old, new)
        impl = next((line for line in reversed(text[:start].splitlines()) if OWNER.match(line)), "") if indent else ""
        is_whole = re.search(r"(\n|\{)\n$", text[:start])
        page = (crate / "must-fail/bodies.md").read_text(encoding="utf-8")
        alone = re.findall(r"^Cannot stand twice: (.*)", page, re.M)
        if body.named or not is_whole or " for " in impl or "trait " in impl or "#[cycle" in self.text or f"`{self.name}`" in "".join(alone):
            raise ValueError
        self.refused = {f"{owner}::{self.name}__{number}".removeprefix("::")}
        module = Path(self.file).relative_to("src").with_suffix("").parts
        folder = Path("proofs", *module * (module not in (("lib",), ("main",))), *[owner] * bool(indent), self.name)
        path, self.proofs = ".".join(folder.parts), {}
        for proof in (crate / "proofs").rglob("*.antt"):
            text = proof.read_text(encoding="utf-8")
            if proof.parent == crate / folder:
                copy = folder.with_name(f"{self.name}__{number}") / proof.name
                self.proofs[copy] = text.replace(f".{path}.", f".{path}__{number}.")
            elif re.search(rf"\.{path}\.(?!Met\b)", text):
                # A lemma on this function's own values does not fit the copy.
                raise ValueError

    def put(self, texts):
        """Puts the copy behind its function."""
        _, end, _ = place_of(texts[self.file], self.name)
        texts[self.file] = texts[self.file][:end] + self.text + texts[self.file][end:]


def place_of(text, name):
    """Where the only function of this name begins, with its attributes, and ends, and its indentation."""
    (head,) = re.finditer(rf"(?m)^(?: *(?://|#\[).*\n)*( *)(?:pub(?:\([a-z]+\))? )?(?:unsafe )?(?:extern \"C\" )?fn {name}\b", text)
    return head.start(), text.index(f"\n{head[1]}}}\n", head.end()) + len(head[1]) + 3, head[1]


def rounds_of(crate, bodies):
    """Divides the bodies into rounds: in a round each function is changed once, or copied, and all texts apply.
    Gives each round's texts, and its bodies with the functions of each that must be refused."""
    rounds = []
    for body in bodies:
        functions, copy = body.changed | body.refused, None
        for taken in rounds:
            texts = edited(crate, taken["texts"], body.edits)
            if body.is_alone or taken["is_alone"]:
                continue
            if texts is not None and not functions & taken["functions"]:
                break
            try:
                copy = Copy(crate, body, len(taken["bodies"]))
                break
            except ValueError:
                pass
        else:
            texts = edited(crate, {}, body.edits)
            if texts is None:
                sys.exit(f"{crate.name}: {body.name}: an old text does not stand exactly once")
            taken = {"bodies": {}, "functions": set(), "copies": [], "is_alone": body.is_alone}
            rounds.append(taken)
        taken["texts"] = taken["texts"] if copy else texts
        taken["copies"] += [copy] * bool(copy)
        taken["bodies"][body] = (copy or body).refused
        taken["functions"] |= functions
    return rounds


class Libraries:
    """The crates of crates.txt, and the arguments with which the prover checks one over the libraries below it."""

    def __init__(self):
        self.kit = Path(subprocess.run([os.environ.get("RT", "rt"), "doc"], capture_output=True, text=True, check=True).stdout.strip()).parent
        self.below = {}
        for line in (ROOT / "crates.txt").read_text(encoding="utf-8").splitlines():
            head, colon, libraries = line.partition(":")
            if colon and not line.startswith("#"):
                self.below[head.split()[0]] = (libraries.split(), "staticlib" in head.split())

    def all_below(self, name):
        found = []
        for library in self.below[name][0]:
            if library in self.below:
                found += [library, *self.all_below(library)]
        return list(dict.fromkeys(found))

    def command(self, name):
        kit, (libraries, is_archive) = self.kit, self.below[name]
        folder = lambda library: ROOT / "crates" / library / "out/rlib" if library in self.below else kit / "rlibs"
        words = [kit / "bin/rattle", "check", "--crate-name", name, "--links", f"{name}=", "--jobs", "1",
                 "--extern", f"std={kit}/rlibs/std.rlib", "--logic-built", kit / "logic_built",
                 "--antt-project", kit / "rattle/logic/antt-project.json", "--incremental", "proved"]
        for library in [*self.all_below(name), "std"]:
            words += ["-L", f"dependency={folder(library)}"]
        for library in libraries:
            words += ["--extern", f"{library}={folder(library)}/{library}.rlib"]
        return [str(word) for word in words + ["--crate-type", "staticlib"] * is_archive]


def outcomes_in(output):
    """What a check says of each function, by the name with which the prover calls it: `refused`, `by name` or
    `failed`, and the prover's words for it."""
    found, notes, errors = {}, [], {}
    for line in output:
        error, note, verdict = ERROR.match(line), OPEN.match(line), VERDICT.match(line)
        if error:
            errors.setdefault(error[1].rpartition("/")[0].replace("/", "::"), []).append(error[2])
        elif note:
            notes.append(note[1])
        elif verdict:
            path, said, rest = verdict[1].partition("::")[2], verdict[2], verdict[3]
            notes += re.findall(r"`search` did not prove (.*)", rest)
            by_name = [error for error in errors.get(path, []) if NAMES.search(error)]
            meant = [error for error in errors.get(path, []) if not NAMES.search(error)]
            # A lemma of proofs/ that a changed definition has made false.
            meant += [error for error in errors.get("", []) if by_name and not NAMES.search(error)]
            is_open = said == "not proved" or "`search` did not prove" in rest
            if is_open and (meant or notes and not by_name):
                found[path] = ("refused", (meant or notes)[0])
            elif is_open and by_name:
                found[path] = ("by name", by_name[0])
            else:
                found[path] = ("failed", said + rest)
            notes = []
    return found


def outcome_of(functions, outcomes, without):
    """The worst of the outcomes of the functions that must be refused. A function's outcome is the best of its
    own and those of its closures. A function without any has failed, for the reason `without`."""
    rank = lambda outcome: ("refused", "by name", "failed").index(outcome[0])
    own = lambda function: [outcome for path, outcome in outcomes.items()
                            if f"::{path}".endswith(f"::{function}") or f"fn::{function}::" in path]
    best = [min(own(function), key=rank, default=("failed", f"{without} {function}")) for function in functions]
    return max(best, key=rank)


def try_round(command, crate, room, taken):
    """Checks the functions of a round. Gives the outcome of each body, and the processor seconds."""
    texts = dict(taken["texts"])
    for copy in taken["copies"]:
        copy.put(texts)
        texts |= copy.proofs
    for file, text in texts.items():
        Path(room, file).parent.mkdir(parents=True, exist_ok=True)
        Path(room, file).write_text(text, encoding="utf-8")
    functions = sorted(set().union(*taken["bodies"].values()))
    only = [word for function in functions for word in ("--only", function)]
    ran = subprocess.Popen([*command, *only], cwd=room, stdout=subprocess.PIPE, stderr=subprocess.STDOUT, text=True, errors="replace")
    output = ran.stdout.read()
    _, status, used = os.wait4(ran.pid, 0)
    for file in texts:
        if (crate / file).is_file():
            shutil.copy(crate / file, Path(room, file))
        else:
            shutil.rmtree(Path(room, file).parent, ignore_errors=True)
    without = "no line about"
    if not re.search(r"^only=", output, re.M):
        without = f"no verdict, status {os.waitstatus_to_exitcode(status)}, {output.strip()[-300:]}; so none about"
    outcomes = outcomes_in(output.splitlines())
    found = {body: outcome_of(refused, outcomes, without) for body, refused in taken["bodies"].items()}
    return found, used.ru_utime + used.ru_stime


def without_bodies(crate, taken):
    """A round with the copies of this one, but without the bodies in them."""
    for copy in taken["copies"]:
        copy.text = copy.true
    texts = {copy.file: (crate / copy.file).read_text(encoding="utf-8") for copy in taken["copies"]}
    bodies = {body: refused for body, refused in taken["bodies"].items() if refused is not body.refused}
    return taken | {"texts": texts, "bodies": bodies}


def try_crate(libraries, crate, only_copies=False, until=float("inf")):
    """Tries the bodies of a crate, or only copies without them. Gives the bodies with their outcomes, the number of
    rounds, and the processor seconds. Begins no round after the time `until`: its bodies have no outcome."""
    bodies, results, seconds, number = bodies_of(crate), {}, 0.0, 0
    with tempfile.TemporaryDirectory(prefix="bodies-") as room:
        for part in ("src", "specs", "proofs"):
            if (crate / part).is_dir():
                shutil.copytree(crate / part, Path(room, part))
        os.mkdir(f"{room}/proved")
        root = "src/main.rt" if (crate / "src/main.rt").is_file() else "src/lib.rt"
        rounds = rounds_of(crate, bodies)
        if only_copies:
            rounds = [without_bodies(crate, taken) for taken in rounds if taken["copies"]]
            bodies = [body for taken in rounds for body in taken["bodies"]]
        while rounds and time.time() < until:
            found, used = try_round([*libraries.command(crate.name), root], crate, room, rounds.pop(0))
            results |= found
            seconds, number = seconds + used, number + 1
            # Of a function that calls one that this round has changed too, the prover may say only that.
            calls = re.compile("it calls|a call of")
            again = [body for body, (what, why) in found.items() if what == "failed" and calls.search(why) and len(found) > 1]
            rounds += [round_ for body in again for round_ in rounds_of(crate, [body])]
            # A body that does not compile leaves its whole round without a verdict.
            if len(found) > 1 and all(why.startswith("no verdict") for _, why in found.values()):
                tried, half = list(found), len(found) // 2
                rounds += rounds_of(crate, tried[:half]) + rounds_of(crate, tried[half:])
        for body in [body for taken in rounds for body in taken["bodies"]]:
            results.pop(body, None)
    return bodies, results, number, seconds


def main(words):
    only_copies, until = "--copies" in words, float("inf")
    if "--minutes" in words:
        place = words.index("--minutes")
        until = time.time() + 60 * float(words[place + 1])
        words = words[:place] + words[place + 2 :]
    names = [word for word in words if word != "--copies"]
    libraries, promises = Libraries(), (ROOT / "docs/PROMISES.md").read_text(encoding="utf-8")
    crates = [page.parents[1] for page in sorted((ROOT / "crates").glob("*/must-fail/bodies.md"))]
    crates = [crate for crate in crates if not names or crate.name in names]
    size = lambda crate: sum(file.stat().st_size for part in ("src", "proofs") for file in crate.glob(f"{part}/**/*.*t"))
    passed, failed, left, by_name, seconds, begun = 0, 0, 0, [], 0.0, time.time()
    with ThreadPoolExecutor(os.cpu_count()) as workers:
        runs = {crate: workers.submit(try_crate, libraries, crate, only_copies, until) for crate in sorted(crates, key=size, reverse=True)}
        for crate in crates:
            bodies, results, rounds, used = runs[crate].result()
            seconds += used
            left += len(bodies) - len(results)
            for body in results:
                what, why = results[body]
                if only_copies:
                    what = "proved" if why.startswith("proved") else "failed"
                passed, failed = passed + (what != "failed"), failed + (what == "failed")
                if what == "by name":
                    by_name.append(body)
                    print(f"{crate.name}: {body.name}: refused only because a proof names what the edit changes: {why[:160]}")
                elif what == "failed":
                    print(f"{crate.name}: {body.name}: NOT {'PROVED' if only_copies else 'REFUSED'}: {why}")
            print(f"{crate.name}: {len(results)} bodies in {rounds} rounds, {used:.0f} processor seconds", flush=True)
    promised = [body.name for body in by_name if f"`{body.name}`" in promises]
    if promised:
        print(f"docs/PROMISES.md names bodies that are refused only by name: {' '.join(promised)}")
    failed += len(promised) + (len(by_name) > MOST_BY_NAME)
    print(f"{len(by_name)} refused only by name (at most {MOST_BY_NAME} may be), {(time.time() - begun) / 60:.0f} minutes by the clock, {seconds / 60:.0f} processor minutes")
    not_run = f"; not run: {left} wrong bodies (no time left)" if left else ""
    print(f"bodies: {passed} passed, {failed} failed{not_run}")
    return failed > 0


if __name__ == "__main__":
    sys.exit(main(sys.argv[1:]))
