#!/usr/bin/env python3
"""Plants one small bug at a time in a copy of a crate's sources, and records whether the check refuses it and where first.

    tools/planted.py list [CRATE...]
    tools/planted.py try FOLDER TABLE [CRATE...] [--lane I/N] [--most N]
    tools/planted.py page TABLE...

`list` prints the changes. `page` prints tables as Markdown. `try` works in FOLDER, a copy of the repository whose crates `rt check` has checked before
(it is made if it is not there), and appends a line for each change to TABLE; changes that TABLE already has are left out.

Changes are made by rule, not by hand, from the bodies of the functions: a comparison, an operator, a constant, a variant, a field or
an argument for another one, a condition turned round, a statement dropped, two refusals in the other order, a return
before the work. tools/planted.more has further ones for bodies that the rules find nothing in.
"""
import hashlib
import os
import re
import shutil
import signal
import subprocess
import sys
import time

ROOT = os.path.dirname(os.path.dirname(os.path.abspath(__file__)))

# Fields and names that are taken for one another.
LIKE = [
    ["self.send_window", "self.receive_window", "self.lifetime", "self.gap", "self.numbers"],
    ["terms.send_window()", "terms.receive_window()"],
    ["self.first", "self.second"],
    ["self.out", "self.back"],
    ["out.", "back."],
    ["sender.ng", "sender.ns", "sender.na"],
    ["self.ng", "self.ns", "self.na"],
    ["receiver.nr", "receiver.nd"],
    ["self.nr", "self.nd"],
    ["Side::Sender", "Side::Receiver"],
    ["Way::First", "Way::Second"],
    ["Head::Data", "Head::EndMark"],
    ["Layer::Frame", "Layer::End", "Layer::Block"],
    ["Fault::block(1)", "Fault::block(2)"],
    ["Outcome::Complete", "Outcome::Unsure { heard: 0, sent: 0, accepted: 0 }"],
    ["true", "false"],
    [".min(", ".max("],
    ["STOP", "START", "SET"],
    ["DATA", "ACKNOWLEDGEMENT", "END_MARK"],
    ["words.first", "words.second"],
]
REFUSALS = ["SenderStoreLength", "ReceiverStoreLength", "SenderStoreFull", "AlreadySealed", "PathFull", "NothingToSend",
            "WindowClosed", "TooSoon", "NotOutstanding", "CarrierFull", "NoSuchPlace", "FrameInTheAir", "NothingToDeliver",
            "BookFull", "NoCapacity", "LifetimeTooLong", "CarrierNotEmpty", "TermOutOfRange", "TooFewNumbers"]
COMPARE = [(" < ", " <= "), (" <= ", " < "), (" > ", " >= "), (" >= ", " > "), (" == ", " != "), (" != ", " == ")]
OPERATE = [(" + ", " - "), (" - ", " + "), (" * ", " + "), (" / ", " % "), (" % ", " / "), (" >> ", " / "), (" += ", " -= "), (" -= ", " += ")]
JOIN = [(" && ", " || "), (" || ", " && ")]
EARLY = {"Option<": "None", "Result<(), ": "Ok(())", "Result<u64, ": "Ok(0)", "Result<Option<u64>, ": "Ok(None)", "u32": "0", "u64": "0", "u16": "0",
         "u8": "0", "usize": "0", "bool": "false"}


class Function:
    def __init__(self, name, public, answer):
        self.name, self.public, self.answer, self.body = name, public, answer, []


def functions(lines):
    """The functions of a file, each with the numbers of the lines of its body; tests are left out."""
    found, here, state, depth, impl = [], None, None, 0, ""
    for i, line in enumerate(lines):
        if line.startswith("#[cfg(test)]"):
            break
        m = re.match(r"(?:pub )?impl(?:<[^{]*?>)? (?:[\w:]+(?:<.*?>)? for )?(\w+)", line)
        if m:
            impl = m.group(1)
        elif line.startswith("}"):
            impl = ""
        if state is None:
            m = re.match(r"\s*(pub |pub\(crate\) )?(?:extern \"C\" )?fn (\w+)", line)
            if not m:
                continue
            public = m.group(1) == "pub " or (m.group(1) is None and trait_impl(lines, i))
            here = Function((impl + "::" if impl and line.startswith(" ") else "") + m.group(2), public, "")
            state = "head"
        if state == "head":
            text = line.strip()
            if text.startswith(("ensures", "requires", "ghost")):
                continue
            m = re.search(r"-> (.*?)(?: \{)?$", line.rstrip())
            if m:
                here.answer = m.group(1)
            if text.endswith(";"):
                state = None
            elif text.endswith("{"):
                state, depth = "body", 1
                here.indent = len(line) - len(line.lstrip())
        elif state == "body":
            depth += line.count("{") - line.count("}")
            if depth <= 0:
                found.append(here)
                state = None
            else:
                here.body.append(i)
    return found


def trait_impl(lines, i):
    """Whether line i stands in an impl of a trait."""
    for line in reversed(lines[:i]):
        if line.startswith("impl"):
            return " for " in line
        if line.startswith("}"):
            return False
    return False


def swaps(line, pairs):
    for old, new in pairs:
        for m in re.finditer(re.escape(old), line):
            yield line[: m.start()] + new + line[m.end():], old.strip() + " made " + new.strip()


def constants(line):
    for m in re.finditer(r"(?<![\w.])(0x[0-9a-f_]+|\d[\d_]*)(?![\w.]*\w*::)", line):
        text = m.group(1)
        value = int(text.replace("_", ""), 0)
        yield line[: m.start()] + str(value + 1) + line[m.end():], text + " made " + str(value + 1)


def likes(line):
    for group in LIKE:
        for old in group:
            for m in re.finditer(re.escape(old) + (r"(?!\w)" if old[-1].isalnum() else ""), line):
                if m.start() and (line[m.start() - 1].isalnum() or line[m.start() - 1] in "_."):
                    continue
                for new in group:
                    if new != old:
                        yield line[: m.start()] + new + line[m.end():], old + " made " + new
    for m in re.finditer(r"Refusal::(\w+)\)", line):
        if m.group(1) in REFUSALS:
            new = REFUSALS[(REFUSALS.index(m.group(1)) + 1) % len(REFUSALS)]
            yield line[: m.start(1)] + new + line[m.end(1):], m.group(1) + " made " + new


def turned(line):
    m = re.match(r"(\s*(?:\} else )?if )(?!let )(.*)( \{)$", line)
    if m:
        yield m.group(1) + "!(" + m.group(2) + ")" + m.group(3), "the condition turned round"
    text = line.strip()
    if text.endswith(";") and "{" not in text and "}" not in text and not text.startswith(("let ", "return", "use ", "const ")):
        yield line[: len(line) - len(line.lstrip())] + "{}", "the statement dropped"


def arguments(line):
    for m in re.finditer(r"\(([\w.&]+(?: [\w.&]+)?), ([\w.&]+(?: [\w.&]+)?)\)", line):
        if m.group(1) != m.group(2):
            yield line[: m.start()] + "(" + m.group(2) + ", " + m.group(1) + ")" + line[m.end():], "arguments swapped"


def line_changes(line):
    if line.strip().startswith("//"):
        return
    yield from swaps(line, COMPARE)
    yield from swaps(line, JOIN)
    yield from turned(line)
    yield from likes(line)
    yield from arguments(line)
    yield from swaps(line, OPERATE)
    yield from constants(line)


def body_changes(lines, function):
    """Whole-body changes: two refusals in the other order, and a return before the work."""
    body = function.body
    for k in range(len(body) - 5):
        a, b = body[k], body[k + 3]
        blocks = [lines[a: a + 3], lines[b: b + 3]]
        if all(re.match(r"\s*if (?!let)", x[0]) and "return" in x[1] and x[2].strip() == "}" for x in blocks):
            yield a, blocks[0] + blocks[1], blocks[1] + blocks[0], "two refusals in the other order"
    for kind, value in EARLY.items():
        if function.answer.startswith(kind) and body and "-> !" not in function.answer:
            first = lines[body[0]]
            yield body[0], [first], [" " * (function.indent + 4) + "if true { return " + value + "; }", first], "returns " + value + " at once"
            break


def changes(crate):
    """Every change of a crate: (file, function, public, first line, old lines, new lines, what)."""
    folder = os.path.join(ROOT, "crates", crate, "src")
    for name in sorted(os.listdir(folder)):
        lines = open(os.path.join(folder, name), encoding="utf-8").read().split("\n")
        for function in functions(lines):
            for i in function.body:
                for new, what in line_changes(lines[i]):
                    if new != lines[i]:
                        yield "src/" + name, function, i, [lines[i]], [new], what
            for at, old, new, what in body_changes(lines, function):
                yield "src/" + name, function, at, old, new, what
    yield from more(crate)


def more(crate):
    """The changes written by hand: lines `crate | file | function | old | new`; an old text with `\\n` behind it is a whole line."""
    for line in open(os.path.join(ROOT, "tools", "planted.more"), encoding="utf-8"):
        part = [x.strip() for x in line.split(" | ")]
        if line.startswith("#") or len(part) != 5 or part[0] != crate:
            continue
        lines = open(os.path.join(ROOT, "crates", crate, part[1]), encoding="utf-8").read().split("\n")
        whole = part[3].endswith("\\n")
        part[3] = part[3].removesuffix("\\n")
        at = [i for i, text in enumerate(lines) if (text.strip() == part[3] if whole else part[3] in text)]
        if len(at) != 1:
            sys.exit("tools/planted.more: %s stands %d times in %s" % (part[3], len(at), part[1]))
        old = lines[at[0]]
        function = next((f for f in functions(lines) if at[0] in f.body), None) or Function(part[2], True, "")
        function.name = part[2]
        yield part[1], function, at[0], [old], [old.replace(part[3], part[4])], part[3] + " made " + part[4]


def chosen(crate, most):
    """Of each function at most so many changes, of different lines and kinds where there are."""
    by_function = {}
    for change in changes(crate):
        by_function.setdefault((change[0], change[1].name), []).append(change)
    for key, found in by_function.items():
        seed = lambda c: hashlib.sha256(repr((c[0], c[1].name, c[3], c[4])).encode()).hexdigest()
        found.sort(key=seed)
        picked, lines, kinds = [], set(), set()
        for strict in (True, False):
            for c in found:
                kind = re.sub(r"\d+", "0", c[5])
                if c in picked or (strict and (c[2] in lines or kind in kinds)):
                    continue
                picked.append(c)
                lines.add(c[2])
                kinds.add(kind)
        for rank, c in enumerate(picked[: 5 * most]):
            yield rank, c


def label(crate, c):
    return "\t".join([crate, c[0], str(c[2] + 1), c[1].name, "pub" if c[1].public else "own", c[5], " ".join(x.strip() for x in c[4])])


# What has no contracts but is run: programs against stored output, and tests.
RUN = ("inspect", "run_script", "station", "speed", "lawful")


def ran(folder, crate):
    """Whether what is proved also runs as it should."""
    where = os.path.join(folder, "crates", crate)
    if crate == "lawful":
        run = subprocess.run(["rt", "test"], cwd=where, capture_output=True, text=True)
        return ("SURVIVED", "-") if run.returncode == 0 else ("refused", "its tests")
    kept = {}
    for name in ("args", "stdin", "stdout"):
        path = os.path.join(where, name)
        kept[name] = open(path, encoding="utf-8").read() if os.path.exists(path) else ""
    words = ["--"] + kept["args"].split() if kept["args"] else []
    run = subprocess.run(["rt", "run"] + words, cwd=where, input=kept["stdin"], capture_output=True, text=True)
    as_it_should = run.returncode == 0 and run.stdout == kept["stdout"]
    return ("SURVIVED", "-") if as_it_should else ("refused", "its run")


def verdict(folder, crate):
    """Where the check of the changed crate first fails: (refused | survived | no program, where)."""
    run = subprocess.run(["rt", "check"], cwd=os.path.join(folder, "crates", crate), capture_output=True, text=True)
    out = run.stdout + run.stderr
    said = re.findall(r"^logic=(proved|not-proved)", out, re.M)
    if said[-1:] == ["proved"]:
        return ran(folder, crate) if crate in RUN else ("SURVIVED", "-")
    if said[-1:] != ["not-proved"]:
        m = re.search(r"error\[([\w-]+)\]", out)
        return "no program", m.group(1) if m else "exit %d" % run.returncode
    where = r"(?:\./)?((?:src|proofs|specs)/\S+?:\d+):\d+: "
    m = re.search("^" + where + "error", out, re.M) or re.search("^note: " + where + "it is not proved", out, re.M)
    return "refused", m.group(1) if m else "?"


def attempt(folder, crate, c):
    path = os.path.join(folder, "crates", crate, c[0])
    text = open(path, encoding="utf-8").read()
    lines = text.split("\n")
    assert lines[c[2]: c[2] + len(c[3])] == c[3], (path, c[2])
    lines[c[2]: c[2] + len(c[3])] = c[4]
    open(path, "w", encoding="utf-8").write("\n".join(lines))
    try:
        return verdict(folder, crate)
    finally:  # also where the run is stopped
        open(path, "w", encoding="utf-8").write(text)


def copy_to(folder):
    os.makedirs(folder, exist_ok=True)
    shutil.rmtree(os.path.join(folder, "crates"), ignore_errors=True)
    shutil.copytree(os.path.join(ROOT, "crates"), os.path.join(folder, "crates"))
    shutil.copy(os.path.join(ROOT, "crates.txt"), folder)


def page(tables):
    """The tables as Markdown: a count for each crate, and then every change."""
    rows = [l.rstrip("\n").split("\t") for name in tables for l in open(name, encoding="utf-8")]
    rows = [r for r in rows if r[7] != "no program"]
    crates = list(dict.fromkeys(r[0] for r in rows))
    print("| crate | changes | refused first in `src/` | in `proofs/` | by its run | not refused |\n|---|---|---|---|---|---|")
    for crate in crates + [None]:
        of = [r for r in rows if crate in (None, r[0])]
        count = lambda f: sum(1 for r in of if f(r))
        print("| %s | %d | %d | %d | %d | %d |" % ("`%s`" % crate if crate else "all", len(of), count(lambda r: r[8].startswith(("src", "specs"))),
              count(lambda r: r[8].startswith("proofs")), count(lambda r: r[8].startswith("its ")), count(lambda r: r[7] == "SURVIVED")))
    for crate in crates:
        print("\n## %s\n\n| function | what was changed | refused first at |\n|---|---|---|" % crate)
        for r in rows:
            if r[0] == crate:
                text = r[6].replace("|", "\\|")
                print("| `%s` | %s:%s `%s` | %s |" % (r[3], r[1].removeprefix("src/"), r[2], text, r[8] if r[7] == "refused" else "not refused"))


def main():
    words = sys.argv[1:]
    if words[:1] == ["page"]:
        page(words[1:])
        return
    option = {"--lane": "0/1", "--most": "2"}
    for name in list(option):
        if name in words:
            at = words.index(name)
            option[name] = words[at + 1]
            del words[at: at + 2]
    most = int(option["--most"])
    if not words or words[0] not in ("list", "try"):
        sys.exit(__doc__)
    skip = 3 if words[0] == "try" else 1
    crates = words[skip:] or [l.split(":")[0].split()[0] for l in open(os.path.join(ROOT, "crates.txt")) if ":" in l and not l.startswith("#")]
    if words[0] == "list":
        for crate in crates:
            for rank, c in chosen(crate, most):
                print(rank, label(crate, c), sep="\t")
        return
    folder, table = words[1:3]
    copy_to(folder)
    lane, lanes = map(int, option["--lane"].split("/"))
    done = {}
    if os.path.exists(table):
        for line in open(table, encoding="utf-8"):
            part = line.rstrip("\n").split("\t")
            done["\t".join(part[:7])] = part[7]
    for crate in crates:
        if verdict(folder, crate)[0] != "SURVIVED":
            sys.exit(crate + " is not proved as it stands")
        good, names = {}, []
        for rank, c in chosen(crate, most):
            key = (c[0], c[1].name)
            if key not in names:
                names.append(key)
            if names.index(key) % lanes != lane or good.get(key, 0) >= most:
                continue
            what = label(crate, c)
            if what in done:
                good[key] = good.get(key, 0) + (done[what] != "no program")
                continue
            began = time.time()
            state, where = attempt(folder, crate, c)
            if state != "no program":
                good[key] = good.get(key, 0) + 1
            with open(table, "a", encoding="utf-8") as f:
                f.write("\t".join([what, state, where, "%.0f" % (time.time() - began)]) + "\n")
            print(state, where, what, sep="\t", flush=True)


signal.signal(signal.SIGTERM, lambda *_: sys.exit(1))
main()
