#!/usr/bin/env python3
"""Looks whether the documents name what is there.

- HEADLINE.md has every definition that is reached from the contracts of `command` and of its parts, beside its file.
- PROVED.md is as proved.py makes it, and has every public call of the crates.
- Each of these definitions has a text.
- Every function that names, in its code, a fault for being out of memory, or of reading or writing, has a comment that says
  how often, and why it is made by hand.
- Links of all documents lead somewhere. Files of crates that ARCHITECTURE.md and DEVELOPING.md name are there, each with its
  crate if several crates have one of that name.
- No name of a type, or of a fact or record of specs/, is there twice.
- GLOSSARY.md or PROVED.md has every public type, and FORMATS.md every public limit, and none that isn't there.
- Each block of code in the documentation of a crate's items is lines, one after another, of a file that the gate proves and
  runs: one of `ovl_caller` or of a crate of tests.
- The test of the worked stacks has the lines of examples/stacks.txt.
- No document is longer than it may be, or has a turn that is refused (prose.py).

Prints what is missing; the status is 1 if something is. Says nothing of what the documents say.

    python3 -B tools/check_docs.py --definitions    # prints the definitions of HEADLINE.md, in its order
"""
import collections
import re
import sys
from pathlib import Path

import proved
import prose

TOP = Path(__file__).resolve().parent.parent
CLAUSES = ["IsOutcome", "is_outside", "request_of", "makes_layers", "KeepsTree", "after", "stays_sound", "HasSoundStack", "stands_alone",
           "IsQuiet", "IsOutcomeOver", "request_for", "KeepsTreeBy"]
# The words of code that make by hand, or are matched by, a fault for being out of memory, or of reading or writing.
MADE = (
    r"\bAllocError\b(?!\s*[>{;])|\bAllocFailed\b(?!\s*[<>{;])|Fault::Memory\b|\bOutOfMemory\b|\bUnread\b(?!\s*[>{;(])"
    r"|\bout_of_memory (?:=|: true)|\.fail\(\)"
    r"|\bReadFault::(?:Device|TooLong)\b|\bProgramFault::(?:Input|Unread|Unwritten|Output)\b|\bErr\(\w*PartFault::"
)
TESTS = {"ovl_test_rows", "ovl_tests", "ovl_refusal_tests"}


def crates():
    return [folder for folder in sorted((TOP / "crates").iterdir()) if folder.name not in TESTS]


def words(text):
    return set(re.split(r"[\s(){}\[\],;.]+", text))


def definitions():
    """The words of each definition in specs/, and what each file of them takes from the others."""
    found, taken = {}, {}
    for crate in crates():
        for path in (crate / "specs").rglob("*.antt"):
            if "declared" in path.parts or "contracts" in path.parts:
                continue
            file = f"{crate.name}/{'.'.join(path.relative_to(crate / 'specs').with_suffix('').parts)}"
            taken[file], current = {}, None
            for line in path.read_text(encoding="utf-8").splitlines():
                use = re.match(r"(?:pub )?use Rattle\.(ovl_\w+)\.specs\.([\w.]+)\.\{(.*)\}", line)
                head = re.match(r"(?:abbrev )?(?:pub )?(?:record |data )?(\S+)", line)
                if use and not use[2].startswith("declared"):
                    for name in use[3].split(","):
                        own, _, alias = name.strip().partition(" as ")
                        taken[file][alias or own] = (f"{use[1]}/{use[2]}", own)
                if re.match(r"(abbrev|pub|record|data)\b", line) and head[1] not in ("mod", "use"):
                    current = (file, head[1])
                    found[current] = set()
                if current and not line.startswith(("--", "use ", "pub use ")):
                    found[current] |= words(line.split(" -- ")[0])
    return found, taken


def reached(found, taken):
    todo = [key for key in found if key[0].startswith(("ovl_engine/", "ovl_commands/")) and key[1] in CLAUSES]
    seen = set()
    while todo:
        key = todo.pop()
        if key in seen or key not in found:
            continue
        seen.add(key)
        for word in found[key]:
            other = (key[0], word)
            while other not in found and other[1] in taken.get(other[0], {}):
                other = taken[other[0]][other[1]]
            todo.append(other)
    return seen


def rows_of_headline():
    """The chapters of HEADLINE.md, and of the rows of their tables the names, the files that may have them, and the source."""
    for line in (TOP / "docs/HEADLINE.md").read_text(encoding="utf-8").splitlines():
        if line.startswith(("## ", "**")):
            yield line.strip("#* ."), [], [], ""
        if line.startswith("| `"):
            names, files, _, source = (line.split("|") + [""])[1:5]
            crate, told = "", []
            for file in re.findall(r"`([^`]+)`", files):
                crate, _, name = file.rpartition("/") if "/" in file else (crate, "", file)
                told.append(f"{crate}/{name}")
            yield "", re.findall(r"`([^`]+)`", names), told, source.strip()


def texts_of(file):
    """The text of each definition of a file of specs/, with the comment above it."""
    crate, name = file.split("/")
    lines = (TOP / "crates" / crate / "specs" / f"{name.replace('.', '/')}.antt").read_text(encoding="utf-8").splitlines()
    texts, comment, current = {}, [], None
    for line in lines:
        head = re.match(r"(?:abbrev )?(?:pub )?(?:record |data )?(\S+)", line)
        if line.startswith("--"):
            comment, current = [*comment, line], None
        elif re.match(r"(abbrev|pub|record|data)\b", line) and head[1] not in ("mod", "use"):
            current = head[1]
            texts[current], comment = [*comment, line], []
        elif not line:
            comment, current = [], None
        elif current:
            texts[current].append(line)
    return texts


def definitions_page():
    """The definitions of HEADLINE.md in its order, each once, with its file and where its rule comes from."""
    found, _ = definitions()
    seen, source = set(), ""
    yield "The definitions that the contracts of `command` and of its parts reach, in the order of HEADLINE.md, which says of each what it"
    yield "says and from where."
    for chapter, names, files, told in rows_of_headline():
        if chapter:
            yield f"\n\n==== {chapter} ===="
        source = source if told == "the same" else told
        for name in names:
            file = next((it for it in files if (it, name) in found), None)
            if file and (file, name) not in seen:
                seen.add((file, name))
                yield f"\n-- {file}" + (f"; from: {source}" if source else "")
                yield from texts_of(file)[name]


def page():
    return "\n".join(definitions_page()) + "\n"


def headline():
    rows = list(rows_of_headline())
    told = {(file, name) for _, names, files, _ in rows for file in files for name in names}
    found, taken = definitions()
    needed = reached(found, taken)
    print(f"{len(needed)} definitions are reached from the contracts of command and of its parts")
    for file, name in sorted(needed - told):
        yield f"HEADLINE.md lacks {name} of {file}"
    known = {name for _, name in found}
    for name in (name for _, names, _, _ in rows for name in names):
        if name not in known:
            yield f"HEADLINE.md names {name}, which no specs/ has"
    text = page()
    for file, name in sorted(needed):
        if f"\n-- {file}" not in text or not any(texts_of(file).get(name, [])):
            yield f"the definition {name} of {file} has no text"


def calls(crate):
    """The public functions of a crate, methods as TYPE::NAME."""
    lib = crate / "src/lib.rt"
    if not lib.exists():
        return set()
    text = lib.read_text(encoding="utf-8")
    public = {"laws"} & set(re.findall(r"pub mod (\w+);", text))
    names = set()
    for use in re.findall(r"pub use (?:\w+::)*(\{[^}]*\}|\w+);", text):
        names |= set(re.findall(r"\w+", use))
    found = set()
    for path in (crate / "src").rglob("*.rt"):
        owner = None
        for line in path.read_text(encoding="utf-8").splitlines():
            own = re.match(r"impl(?:<[^{]*?>)? (\w+)(?:<.*>)? \{", line)
            if re.match(r"\S", line):
                owner = own[1] if own else (owner if line.startswith("}") else None)
            call = re.match(r"(\s*)pub fn (\w+)", line)
            if call and not call[1] and (call[2] in names or path.stem in public):
                found.add(call[2])
            elif call and call[1] and owner in names:
                found.add(f"{owner}::{call[2]}")
    return found


def public_items():
    text = (TOP / "docs/PROVED.md").read_text(encoding="utf-8")
    if text != proved.page():
        yield "PROVED.md isn't what the contracts are: python3 -B tools/proved.py"
    for crate in proved.crates():
        for call in sorted(calls(crate) - {item.name for item in proved.items_of(crate)}):
            yield f"proved.py doesn't find {call} of {crate.name}, which has no documentation"


def code_lines(path):
    """The function that each line stands in, methods as TYPE::NAME, its code without comments and clauses, and the line."""
    owner, function = None, None
    for line in path.read_text(encoding="utf-8").splitlines():
        code = line.split("//")[0]
        own = re.match(r"impl(?:<[^{]*?>)? (?:(?:\w+::)*(\w+)(?:<[^{]*>)? for )?(\w+)", code)
        if own:
            owner = f"{own[2]} from {own[1]}" if own[1] == "From" else own[2]
        elif re.match(r"(pub|fn|enum|struct|trait|mod)\b", code):
            owner = None
        head = re.search(r"\bfn (\w+)", code)
        if head:
            function = f"{owner}::{head[1]}" if owner and code.startswith(" ") else head[1]
            code = code.partition("->")[0].partition("(_:")[0]
        if re.match(r"\s*(ghost|pub use|use|impl|type|ensures|requires)\b|.*[\u2261\u03bb\u2192]", code):
            code = ""
        yield function, code, line


def made_faults():
    """Functions that make faults by hand as often as no comment of theirs says. Conversions have the clause `from_gives`."""
    for crate in crates():
        for path in sorted((crate / "src").rglob("*.rt")):
            made, told = collections.Counter(), collections.Counter()
            for function, code, line in code_lines(path):
                made[function] += len(re.findall(MADE, code))
                said = re.match(r"\s*// Made by hand \((\d+)\): \S", line)
                told[function] += int(said[1]) if said else 0
            for function in made:
                if " from From" not in str(function) and made[function] != told[function]:
                    yield (f"{path.relative_to(TOP)}: {function} has {made[function]} words of faults that are made by hand, "
                           f"and a comment `// Made by hand ({told[function]}): WHY.`")


def anchor(heading):
    return re.sub(r"[^\w\- ]", "", heading.strip().lower()).replace(" ", "-")


def links():
    documents = [path for path in TOP.rglob("*.md") if "out" not in path.parts and ".git" not in path.parts]
    for path in documents:
        for link in re.findall(r"\]\(([^)\s]+)\)", path.read_text(encoding="utf-8")):
            if link.startswith("http"):
                continue
            file, _, place = link.partition("#")
            target = (path.parent / file).resolve() if file else path
            name = f"{path.relative_to(TOP)}: the link {link}"
            if not target.exists():
                yield f"{name} leads nowhere"
            elif place:
                heads = re.findall(r"^#+ (.*)$", target.read_text(encoding="utf-8"), flags=re.M)
                if place not in {anchor(head) for head in heads}:
                    yield f"{name} has no such chapter"


def files():
    """Files of crates that two documents name: from `crates`, or by their name if only one crate has it."""
    owners = collections.defaultdict(set)
    for crate in crates():
        for path in [*(crate / "src").rglob("*.rt"), *(crate / "specs").rglob("*.antt")]:
            owners[path.name].add(crate.name)
    for page in ("ARCHITECTURE.md", "DEVELOPING.md"):
        yield from files_of(page, owners)


def files_of(page, owners):
    text = (TOP / "docs" / page).read_text(encoding="utf-8")
    for file in sorted(set(re.findall(r"`([\w/]+\.(?:rt|antt))`", text))):
        name = file.rpartition("/")[2]
        if file.startswith("ovl_"):
            if not (TOP / "crates" / file).exists():
                yield f"{page} names crates/{file}, which isn't there"
        elif len(owners[name]) > 1:
            yield f"{page} names {file} without its crate, one of {', '.join(sorted(owners[name]))}"
        elif not owners[name] and name.endswith(".rt"):
            yield f"{page} names {file}, which isn't there"


def types(crate):
    """The types of a crate with their files, and whether they are public."""
    exported = words(" ".join(re.findall(r"pub use ([^;]*);", lib_of(crate)))) if lib_of(crate) else set()
    for path in sorted((crate / "src").rglob("*.rt")):
        for name in re.findall(r"^(?:pub(?:\(crate\))? )?(?:struct|enum|trait|type) (\w+)", path.read_text(encoding="utf-8"), flags=re.M):
            yield name, path, any(word.split("::")[-1] == name for word in exported)


def lib_of(crate):
    lib = crate / "src/lib.rt"
    return lib.read_text(encoding="utf-8") if lib.exists() else ""


def facts(crate):
    """The facts and records of a crate's specs/, with their files."""
    for path in sorted((crate / "specs").rglob("*.antt")):
        if "declared" not in path.parts and "contracts" not in path.parts:
            text = path.read_text(encoding="utf-8")
            yield from ((name, path) for name in re.findall(r"^(?:abbrev )?pub (?:record |data )?([A-Z]\w*)\b", text, flags=re.M))


def homonyms():
    """Types, and facts and records of specs/, whose names are in several files."""
    places = collections.defaultdict(set)
    for crate in crates():
        for name, path, *_ in [*types(crate), *facts(crate)]:
            places[name].add(str(path.relative_to(TOP / "crates")))
    for name, own in sorted(places.items()):
        if len(own) > 1:
            yield f"{name} is a name of {' and '.join(sorted(own))}: one name, one meaning"


def names():
    """Public types and limits of which no document says anything."""
    pages = {page: (TOP / "docs" / page).read_text(encoding="utf-8") for page in ("GLOSSARY.md", "PROVED.md", "FORMATS.md")}
    told = {word for page in ("GLOSSARY.md", "PROVED.md") for code in re.findall(r"`([^`]+)`", pages[page]) for word in re.findall(r"\w+", code)}
    told |= {word.strip("` ").replace(" ", "") for row in re.findall(r"^\| (.*?) \|", pages["GLOSSARY.md"], flags=re.M) for word in row.split(",")}
    limits = set(re.findall(r"`(\w+)` of `(\w+)`", pages["FORMATS.md"]))
    for crate in crates():
        for name, _, public in types(crate):
            if public and name not in told and name.lower() not in told:
                yield f"neither GLOSSARY.md nor PROVED.md has the type {name} of {crate.name}"
        text = "\n".join(path.read_text(encoding="utf-8") for path in sorted((crate / "src").rglob("*.rt")))
        for name in sorted(set(re.findall(r"^pub const (\w*LIMIT)\b", text, flags=re.M)) - {name for name, own in limits if own == crate.name}):
            yield f"FORMATS.md lacks the limit {name} of {crate.name}"
        for name in sorted(name for name, own in limits if own == crate.name and not re.search(rf"\bconst {name}\b", text)):
            yield f"FORMATS.md names {name}, which {crate.name} hasn't"


def code_blocks(path):
    """The blocks of code in the documentation of a file's items: where each begins, and its lines without their indentation."""
    first, block = 0, None
    for number, line in enumerate(path.read_text(encoding="utf-8").splitlines(), 1):
        told = re.match(r"\s*//[/!](.*)", line)
        fence = told and told[1].strip().startswith("```")
        if block is None and fence:
            first, block = number, []
        elif block is not None and (fence or not told):
            yield first, block
            block = None
        elif block is not None:
            block.append(told[1].strip())


def blocks():
    """Blocks of code in documentation that no file has which the gate proves and runs."""
    tried = []
    for crate in sorted({"ovl_caller"} | TESTS):
        for path in sorted((TOP / "crates" / crate / "src").rglob("*.rt")):
            lines = path.read_text(encoding="utf-8").splitlines()
            tried.append("\n".join(["", *(line.strip() for line in lines), ""]))
    for crate in crates():
        for path in sorted((crate / "src").rglob("*.rt")):
            for number, block in code_blocks(path):
                text = "\n".join(["", *block, ""])
                if not any(text in file for file in tried):
                    yield f"{path.relative_to(TOP)}:{number}: ovl_caller and the crates of tests have no such lines as this block"


def worked_stacks():
    """Whether the test of the worked stacks has the lines of stacks.txt."""
    lines = [line for line in (TOP / "examples/stacks.txt").read_text(encoding="utf-8").splitlines() if not line.startswith("#")]
    test = TOP / "crates/ovl_tests/src/stacks.rt"
    if f'r#"\n{chr(10).join(lines).strip()}\n"#' not in test.read_text(encoding="utf-8"):
        yield f"{test.relative_to(TOP)} hasn't the lines of examples/stacks.txt: copy them"


if __name__ == "__main__":
    if sys.argv[1:] == ["--definitions"]:
        sys.exit(print(page(), end=""))
    missing = [*headline(), *public_items(), *made_faults(), *links(), *files(), *homonyms(), *names(), *blocks(), *worked_stacks(), *prose.turns(), *prose.lengths()]
    print("\n".join(missing) or "nothing is missing")
    sys.exit(1 if missing else 0)
