"""Changes an answer of each table of worked examples, and reports what its test says.

A table is a static or a constant of a crate whose name ends in `_tests`: a text with a line for each row, whose answer is behind ` => `, or
a list of rows, whose last part is the answer. In a copy of the working tree each table gets a copy whose first row has another answer, and the test that
walks it a copy that walks that one, with the functions between them. scripts/try_tests/crate.sh runs them without a proof,
or `rt test` does, which proves them first. Libraries that are built here needn't be built again.

Prints each table with what its test says, which has to name the row, and each table that isn't tried, since its rows
have no answer or no test walks it. Every test has to fail that walks a changed table, and there has to be one.
"""
import re
import subprocess

from krates_sources import ROOT, copy_libraries, files

TABLE = re.compile(r"^(?:pub(?:\(\w+\))? )?(?:const|static) (\w+): (&\[[^=]*\]) =\s*(?=&\[)", re.MULTILINE)
TEXT_TABLE = re.compile(r'^(?:pub(?:\(\w+\))? )?static (\w+): (&str) =\s*(?=r?#*"\n)', re.MULTILINE)
TEXT_ROW = re.compile(r"^(?!// )(.* =>)", re.MULTILINE)
FUNCTION = re.compile(r"^(?:pub(?:\(\w+\))? )?fn (\w+)", re.MULTILINE)
TEST = re.compile(r"^#\[test\]\nfn (\w+)", re.MULTILINE)
RAW = re.compile(r'b?r(#*)"')
CHARACTER = re.compile(r"'(?:\\[^']*|[^'\\])'")
SAID = re.compile(r"^test (\S+) \.\.\. (\w+)\n((?:    .*\n)*)", re.MULTILINE)


def behind(text, at):
    """Returns the place after the comment or literal that begins here, or this place."""
    if text.startswith("//", at):
        return (text + "\n").index("\n", at)
    if (raw := RAW.match(text, at)) and not re.match(r"\w", text[at - 1 : at]):
        return text.index('"' + raw[1], raw.end()) + 1 + len(raw[1])
    if text[at] == '"':
        return re.compile(r'"(?:\\.|[^"\\])*"', re.DOTALL).match(text, at).end()
    character = CHARACTER.match(text, at)
    return character.end() if character else at


def closed(text, at):
    """Returns the place after the bracket that closes the first one from here on."""
    depth = 0
    while True:
        if (end := behind(text, at)) > at:
            at = end
            continue
        depth += (text[at] in "([{") - (text[at] in ")]}")
        at += 1
        if depth == 0 and text[at - 1] in ")]}":
            return at


def parts(text):
    """Returns what is between the commas outside of brackets, each part with its end, before its comma."""
    found, first, at = [], 0, 0
    while at < len(text):
        end = behind(text, at)
        if end == at and text[at] in "([{":
            end = closed(text, at)
        if text[at] == ",":
            found.append((text[first:at], at))
            first = at + 1
        at = max(end, at + 1)
    return found + [(text[first:], len(text))] * bool(text[first:].strip())


def without_comments(text):
    """Returns the text without its lines of comment."""
    return re.sub(r"^\s*//.*\n", "", text.lstrip("\n"), flags=re.MULTILINE).strip()


def changed(answer):
    """Returns an answer that isn't this one, or nothing where none is known."""
    if text := re.match(r'b?(r#*)?"', answer):
        return f"{text[0]}x{answer[text.end():]}"
    if answer in ("true", "false"):
        return "false" if answer == "true" else "true"
    if answer.isdigit():
        return str(int(answer) + 1)
    if re.fullmatch(r"[A-Z_]+", answer):
        return '"x"'
    if held := re.fullmatch(r"((?:Some)?\()(.*)\)", answer, re.DOTALL):
        last = parts(held[2])[-1][0].strip()
        another = changed(last)
        at = held[2].rindex(last)
        return another and f"{held[1]}{held[2][:at]}{another}{held[2][at + len(last):]})"
    return None


def functions(text):
    """Returns each function outside of an impl, by its name."""
    return {it[1]: text[it.start() : closed(text, text.index("{", it.end()))] for it in FUNCTION.finditer(text)}


def walks(body, table):
    """Whether the function walks the table, or has it walked: one that passes it on otherwise makes what is asked of it."""
    return re.search(rf"\bhold\w*(::<.*?>)?\([^;]*\b{table}\b|\bin {table}\b", body)


def way(bodies, tests, table):
    """Returns the functions from one that walks the table to a test, or nothing."""
    ways = [[name] for name, body in bodies.items() if (re.search(rf"\b{table}\b", body) if name in tests else walks(body, table))]
    for found in ways:
        if found[-1] in tests:
            return found
        calls = re.compile(rf"\b{found[-1]}\b")
        ways += [[*found, name] for name, body in bodies.items() if name not in found and calls.search(body)]
    return []


def another_list(text, start):
    """Returns the list of rows that begins here with another answer in its first row, or nothing where none is known."""
    rows = text[start + 2 : closed(text, start + 1) - 1]
    row, end = parts(rows)[0]
    another = changed(without_comments(row))
    return another and f"&[{another},{rows[end + 1:]}]"


def another_text(text, start):
    """Returns the text with a line for each row that begins here with another answer in its first row, or nothing where it has no row."""
    literal = text[start : behind(text, start)]
    another = TEXT_ROW.sub(r"\1 x", literal, count=1)
    return another if another != literal else None


def tables(text):
    """Returns the tables of a file: the match of each, and what stands in it with another answer, or nothing."""
    lists = [(it, another_list(text, it.end())) for it in TABLE.finditer(text)]
    return lists + [(it, another_text(text, it.end())) for it in TEXT_TABLE.finditer(text) if " =>" in text[it.end() : behind(text, it.end())]]


def copies(text):
    """Returns the copies of a file's tables and tests, the tests by their tables, and the tables that aren't tried."""
    bodies, tests, added, found, left = functions(text), TEST.findall(text), "", {}, []
    for table, another in tables(text):
        name, steps = table[1], way(bodies, tests, table[1])
        if not another or not steps:
            left.append(name)
            continue
        added += f"\nconst {name}_CHANGED: {table[2]} = {another};\n"
        for step in steps:
            body = re.sub(rf"\b{name}\b", f"{name}_CHANGED", bodies[step])
            for other in steps:
                body = re.sub(rf"\b{other}\b", f"{other}_of_{name.lower()}", body)
            added += "\n" + "#[test]\n" * (step in tests) + body + "\n"
        found[f"{steps[-1]}_of_{name.lower()}"] = name
    return added, found, left


def change(source):
    """Changes the tables of a crate: the tables by the tests that walk them, and the tables that aren't tried."""
    found, left = {}, []
    for file in files(source):
        added, here, untried = copies(file.read_text())
        file.write_text(file.read_text() + added)
        module = "::".join(file.relative_to(source).with_suffix("").parts)
        found.update({f"{module}::{test}": f"{module} {table}" for test, table in here.items()})
        left += [f"{module} {table}" for table in untried]
    return found, left


def is_refused(crate, room, is_compiled):
    """Changes the tables of a crate, reports what its tests say, and returns whether all that walk one failed, and any did."""
    found, left = change(room / "crates" / crate / "src")
    how = {"cwd": room / "crates" / crate, "capture_output": True, "text": True, "errors": "replace"}
    if is_compiled:
        subprocess.run(["rt", "fmt"], **how, check=True)
    ran = subprocess.run(["rt", "test"] if is_compiled else [ROOT / "scripts/try_tests/crate.sh"], **how)
    said = {test: (kind, " ".join(more.split())) for test, kind, more in SAID.findall(ran.stdout + ran.stderr)}
    for test, table in found.items():
        kind, more = said.get(test, ("not run", ""))
        print(f"{crate} {table}: {kind}: {more.partition(' the test failed')[0][:200]}")
    for table in left:
        print(f"{crate} {table}: not tried")
    failed = sum(said.get(test, ("", ""))[0] == "FAILED" for test in found)
    print(f"{crate}: {failed} of {len(found)} failed, {len(left)} not tried")
    return failed == len(found) > 0


def are_refused(room, crates, is_compiled=False):
    """Whether every test of the crates that walks a changed table fails, and there is one in each crate."""
    copy_libraries(room)
    return all([is_refused(crate, room, is_compiled) for crate in crates])


def are_refused_compiled(room, crates):
    """The same, where the tests are proved, and run as they are compiled."""
    return are_refused(room, crates, True)
