"""Writes certificates by krates of documents, and checks them and damaged ones by the program that only checks certificates.

Of each document, without an option and under `--edges no-dev` for Linux, `cargo-krates certify` writes the closed
list of all that is kept, that of a package that isn't, and a derivation of each kept crate, of at most twelve. Each
has to hold, with the crates and steps that it has. Then in each one fact or step is taken away, exchanged for the
next one, or added, and it is checked with another document and under the other setting: each of these has to be
refused, a step at or after the place of the change; but by another document only where what it says isn't true there. At
last COUNT damaged certificates, 1,000 where none is given and the same in every run: texts that are cut off, and
values that are gone, of another type, doubled under their key, or exchanged. None of them may be a yes, and each has
to end with status 1, nothing on standard output and one line on standard error.

Each run that ends otherwise is reported.
"""
import copy
import json
import pathlib
import random
import re
import tempfile

from compare.programs import LINUX, printed, run
from krates_sources import documents

SETTINGS = [[], ["--edges", "no-dev", *LINUX]]
CRATES = 12
NOTE = re.compile(r"\Anote: by krates: .*\n")
REFUSED = re.compile(r"error: (step (\d+) does not follow|something follows from the facts and isn't among them)\n")


class Tally:
    """How many runs ended as they have to, by what was done to the certificate, and which didn't."""

    def __init__(self):
        """Nothing has ended."""
        self.counts, self.wrong = {}, []

    def add(self, kind, is_right, told):
        """Adds a run, and what is reported of it where it is wrong."""
        self.counts[kind] = self.counts.get(kind, 0) + 1
        if not is_right:
            self.wrong.append(f"{kind}: {told}")


def written(folder, place):
    """The name and the file of each document, which is written to a place."""
    for path, text in documents(folder):
        file = pathlib.Path(place, f"{path.parent.name}.json")
        file.write_bytes(text)
        yield path.parent.name, file


def made(file, options, *words):
    """What the first program prints."""
    return printed("cargo_krates", [*words, "--by", "krates", *options, "--metadata", str(file)])


def checked(file, options, certificate):
    """How the checker ends: its status, standard output and standard error, without the note that says by which rules it judges."""
    text = certificate if isinstance(certificate, bytes) else json.dumps(certificate).encode()
    status, out, said = run("krates_check", ["--by", "krates", *options, "--metadata", str(file)], text)
    return status, out, NOTE.sub("", said)


def parts(certificate):
    """Its steps or facts."""
    return certificate["steps" if certificate["kind"] == "derivation" else "facts"]


def number(count, word):
    """The count with the word, of which there may be several."""
    return f"{count} {word}" if count == 1 else f"{count} {word}s"


def wanted(certificate):
    """What is printed of a certificate that holds."""
    listed = parts(certificate)
    if certificate["kind"] == "derivation":
        return f"holds: crate {listed[-1]['fact']['krate']} is kept, {number(len(listed), 'step')}\n"
    count = len({fact["krate"] for fact in listed if fact["fact"] == "crate"})
    return f"holds: nothing but {'this' if count == 1 else 'these'} {number(count, 'crate')} can be reached\n"


def kept(file, options):
    """The ids of the kept crates."""
    return made(file, options, "list", "--ids").split("\n")[:-1]


def is_so(file, options, certificate):
    """Whether what a certificate says is true of a document."""
    ids, listed = set(kept(file, options)), parts(certificate)
    if certificate["kind"] == "derivation":
        return listed[-1]["fact"]["krate"] in ids
    return ids <= {fact["krate"] for fact in listed if fact["fact"] == "crate"}


def certificates(file, options):
    """The certificates of a document."""
    ids = kept(file, options)
    listed = json.loads(file.read_text())["packages"]
    yield json.loads(made(file, options, "certify", "--all"))
    for package in [package["id"] for package in listed if package["id"] not in ids][:1]:
        yield json.loads(made(file, options, "certify", package))
    for krate in ids[:: max(1, len(ids) // CRATES)][:CRATES]:
        yield json.loads(made(file, options, "certify", krate))


def changed(certificate, rng):
    """The certificate with one part taken away, exchanged or added: what was done, the first place touched, and it."""
    count = len(parts(certificate))
    other = copy.deepcopy(parts(certificate)[0])
    if certificate["kind"] == "closed":
        place = rng.randrange(count)
        yield "taken away", place, edited(certificate, lambda p: p.pop(place))
        if p_differ(certificate, place):
            yield "exchanged", place, edited(certificate, lambda p: p.__setitem__(place, p[place - 1]))
        return
    if count > 1:
        place = rng.randrange(count - 1)
        yield "taken away", place, edited(certificate, lambda p: p.pop(place))
        yield "exchanged", place, edited(certificate, lambda p: p.insert(place, p.pop(place + 1)))
    other["rule"] = 2
    yield "added", count, edited(certificate, lambda p: p.append(other))


def p_differ(certificate, place):
    """Whether a fact and the one before it aren't the same."""
    return parts(certificate)[place] != parts(certificate)[place - 1]


def edited(certificate, change):
    """A copy of the certificate whose parts are changed so."""
    made = copy.deepcopy(certificate)
    change(parts(made))
    return made


def check_changes(tally, name, file, options, certificate, rng):
    """One part of a certificate is changed in each way."""
    for kind, place, made in changed(certificate, rng):
        status, out, said = checked(file, options, made)
        refusal = REFUSED.fullmatch(said)
        is_placed = bool(refusal) and (refusal[2] is None or int(refusal[2]) >= place)
        tally.add(kind, status == 1 and not out and is_placed, f"{name} {options} at {place}: {status} {out}{said}")


def check_other(tally, file, options, certificate):
    """A certificate is checked with another document."""
    status, out, said = checked(file, options, certificate)
    is_refused = status == 1 and not out and said.startswith("error: ")
    is_right = is_refused or (status, out) == (0, wanted(certificate)) and is_so(file, options, certificate)
    tally.add("other document", is_right, f"{file} {options}: {status} {out}{said}")


def leaves(value, path=()):
    """The paths to all values within a value."""
    yield path
    items = value.items() if isinstance(value, dict) else enumerate(value) if isinstance(value, list) else ()
    for key, item in items:
        yield from leaves(item, (*path, key))


def damaged(text, rng):
    """A damaged certificate that means something else: its bytes."""
    while True:
        if rng.random() < 0.2:
            return text[: rng.randrange(len(text) - 2)]
        value = json.loads(text)
        path = rng.choice([path for path in leaves(value) if path])
        above = value
        for key in path[:-1]:
            above = above[key]
        old, how = above[path[-1]], rng.randrange(4)
        if how == 0:
            # the first steps of a derivation are one too
            if path == ("steps", len(value.get("steps", [])) - 1):
                continue
            del above[path[-1]]
        elif how == 1:
            above[path[-1]] = rng.choice([None, True, -1, 1.5, 7, "", "x", [], {}, [[]], "path+file:///z#z@9.9.9"])
        elif how == 2:
            above[path[-1]] = {"x": old}
        elif isinstance(above, dict) and isinstance(old, str):
            doubled = f"{json.dumps(path[-1])}:{json.dumps(old)}"
            written = json.dumps(value, separators=(",", ":"))
            return written.replace(doubled, f'{doubled},{json.dumps(path[-1])}:"z"', 1).encode()
        if value != json.loads(text):
            return json.dumps(value).encode()


def check_damage(tally, whole, count, rng):
    """Damaged certificates, each checked with the document and under the setting of the whole one."""
    for _ in range(count):
        name, file, options, certificate = rng.choice(whole)
        text = damaged(json.dumps(certificate).encode(), rng)
        status, out, said = checked(file, options, text)
        is_right = status == 1 and not out and said.count("\n") == 1 and said.startswith("error: ")
        tally.add("damaged", is_right, f"{name} {options}: {status} {out}{said}{text[:2000]!r}")


def check_document(tally, files, at, whole, rng):
    """Checks the certificates of a document and what is made of them; adds those that aren't long to the whole ones."""
    name, file = files[at]
    for number, options in enumerate(SETTINGS):
        for certificate in certificates(file, options):
            ended = checked(file, options, certificate)
            tally.add("whole", ended == (0, wanted(certificate), ""), f"{name} {options}: {ended}")
            ended = checked(file, SETTINGS[1 - number], certificate)
            tally.add("other setting", ended[0] == 1 and "of another setting" in ended[2], f"{name}: {ended}")
            check_other(tally, files[at - 1][1], options, certificate)
            check_changes(tally, name, file, options, certificate, rng)
            if len(json.dumps(certificate)) < 200_000:
                whole.append((name, file, options, certificate))


def compare(folder, count=1000):
    """Checks certificates of each document, and damaged ones, and returns whether all ended as they have to, and there was one."""
    rng, tally, whole = random.Random(1), Tally(), []
    with tempfile.TemporaryDirectory() as place:
        files = list(written(folder, place))
        for at in range(len(files)):
            check_document(tally, files, at, whole, rng)
        if whole:
            check_damage(tally, whole, count, rng)
    for line in tally.wrong[:20]:
        print(line[:3000])
    counts = ", ".join(f"{kind}: {count}" for kind, count in tally.counts.items())
    print(f"{counts} ; {len(tally.wrong)} ended otherwise")
    return not tally.wrong and "whole" in tally.counts
