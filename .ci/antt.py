"""What the gate's scripts know of .antt and .rt files: the declarations in them, and the names that they import.

An .antt file is read by its layout, which `rt fmt` keeps: a line starts a declaration, goes on with one (deeper, or a
closing bracket), or is a clause of the one before.
"""
import glob
import re

# What is written of the proof of a function F, in proofs/F/.
PROOFS = ("/Answers.antt", "/Invariants.antt", "/Proof.antt")


class Declaration:
    """A name: what it is (def, record, data, field, constructor), whose (of the last two), if it is pub, and its text."""

    def __init__(self, name, kind, owner, public, text):
        self.name, self.kind, self.owner, self.public, self.text = name, kind, owner, public, text


def entries(lines):
    """The lines of one depth, each with the deeper ones that belong to it."""
    lines = [l for l in lines if l.strip()]
    depth = min((len(l) - len(l.lstrip()) for l in lines), default=0)
    found = []
    for l in lines:
        if l[depth] in " )]}" and found:
            found[-1].append(l)
        else:
            found.append([l])
    return found


def headed(entry):
    """The head of a block, up to its `where`, and the lines in it."""
    for i, l in enumerate(entry):
        if re.search(r"\bwhere$", l):
            return " ".join(entry[:i + 1]), entry[i + 1:]
    return " ".join(entry), []


def declared(lines, kind="def", owner=None, public_owner=False):
    """The declarations of some lines of one depth, with those in modules, records and data among them."""
    found = []
    for entry in entries(lines):
        marks, rest = re.match(r"\s*((?:(?:pub|abbrev|unfoldable) )*)(.*)", entry[0]).groups()
        words, public = rest.split(), "pub" in marks or kind == "constructor" and public_owner
        if words[0] in ("use", "unfolding", "infix", "infixr", "infixl", "mod"):
            continue
        if words[0] == "module":
            found += declared(headed(entry)[1])
        elif words[0] in ("record", "data") and headed(entry)[0].endswith("where"):
            head, inside = headed(entry)
            found.append(Declaration(words[1], words[0], None, public, head))
            found += declared(inside, "field" if words[0] == "record" else "constructor", words[1], public)
        elif len(words) > 1 and words[1] == ":":
            found.append(Declaration(words[0], kind, owner, public, "\n".join(entry)))
        elif found:
            found[-1].text += "\n" + "\n".join(entry)
    return found


class File:
    """An .antt file: its path, its declarations, and for each imported name the module that it comes from and its name there."""

    def __init__(self, path):
        self.path = path
        _, self.crate, self.folder, rest = path.split("/", 3)
        self.module = rest.removesuffix(".antt")
        # a proof of a function of src/, and no file of declarations
        self.is_proof = self.folder == "proofs" and rest.endswith(PROOFS)
        text = re.sub(r"(?m)(^|\s)--( .*)?$", r"\1", open(path).read())
        self.uses, self.qualified = imports(text)
        self.declarations = declared(text.split("\n"))


def imports(text):
    """The names that `use M.{a, b as c}` lines bring, and the short names of modules, `use M as m`."""
    names = {}
    for module, group in re.findall(r"(?m)^(?:unfoldable )?(?:pub |ghost )?use ([^\s{;]+)\.\{([^}]*)\}", text):
        for name in group.split(","):
            theirs, _, ours = name.strip().partition(" as ")
            if theirs:
                names[ours or theirs] = (module, theirs)
    short = {ours: module for module, ours in re.findall(r"(?m)^(?:pub |ghost )?use ([^\s{;]+) as ([^\s;]+)", text)}
    return names, short


def files(folders=("specs", "proofs")):
    """Every .antt file of the crates."""
    return [File(p) for f in folders for p in sorted(glob.glob(f"crates/*/{f}/**/*.antt", recursive=True)) if not p.endswith("/Lib.antt")]


def crates():
    """The crates in the order of crates.txt, each with the crates that it may use."""
    uses = {}
    for line in open("crates.txt"):
        line = line.split("#")[0].strip()
        if line:
            # NAME, and then its kind (staticlib) and what rt is to know of it
            name, _, rest = line.partition(":")
            uses[name.split()[0]] = rest.split()
    return uses
