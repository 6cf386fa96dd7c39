"""What tools/named and tools/proved read in the sources of a crate: its functions, each with its clauses and the first sentence that is said of it."""
import collections
import os
import re

ROOT = os.path.dirname(os.path.dirname(os.path.realpath(__file__)))
FUNCTION = re.compile(r"(\s*)(pub |pub\(crate\) )?(?:const )?fn (\w+)")
CLAUSE = re.compile(r"\s*(ensures|requires)\*?(?: local)?(?: ([\w-]+))? \{")

# A function: the type or trait that it is of (None: of none), whether that is a trait, whether it is `pub`, its clauses, premises among them as
# `requires NAME` (`_` is a clause without a name), the first sentence of what is said of it, and its lines.
Function = collections.namedtuple("Function", "owner name is_of_trait is_pub clauses says lines")


def without_generics(text):
    """Returns the text behind the generics that it begins with."""
    depth = 0
    for at, letter in enumerate(text):
        depth += (letter == "<") - (letter == ">" and text[at - 1] != "-")
        if not depth:
            return text[at + 1 :] if text[0] == "<" else text
    return text


def owner_of(line):
    """Returns the type or trait whose functions follow this line, if it begins such, and whether they are a trait's."""
    begun = re.match(r"(?:pub(?:\(crate\))? )?(impl|trait)\b(.*)", line)
    if not begun:
        return None
    head = without_generics(begun[2].strip()).strip()
    is_of_trait = begun[1] == "trait" or " for " in head
    head = head.split(" for ")[-1].strip()
    named = re.match(r"&?(\w+)", head)
    # A tuple has no name.
    return (named[1] if named else head), is_of_trait, begun[1] == "trait" and line.startswith("pub trait")


def sentence(lines):
    """Returns the first sentence, without its point."""
    return re.match(r".*?(?:\.(?= |$)|$)", " ".join(lines))[0].rstrip(".")


def functions_of(path):
    """Returns the functions of a file, in their order."""
    of, said, found = None, [], []
    with open(path, encoding="utf-8") as text:
        for line in text:
            of = None if line.startswith("}") else owner_of(line) or of
            words = re.match(r"\s*/// ?(.*)", line)
            name = FUNCTION.match(line)
            if words:
                said.append(words[1].strip())
            elif name:
                owner, is_of_trait, is_pub_trait = of if of and name[1] else (None, False, False)
                found.append(Function(owner, name[3], is_of_trait, name[2] == "pub " or is_pub_trait, [], sentence(said), []))
            if not re.match(r"\s*(//|#)", line):
                said = []
            if found:
                found[-1].lines.append(line)
            clause = CLAUSE.match(line)
            if clause and found:
                found[-1].clauses.append("requires " * (clause[1] == "requires") + (clause[2] or "_"))
    return found


def files_of(crate):
    """Returns the paths of the crate's files."""
    found = [f"{at}/{file}" for at, _, files in os.walk(f"{ROOT}/crates/{crate}/src") for file in files if file.endswith(".rt")]
    return sorted(found)


def crates():
    """Returns the crates in the order of crates.txt, the lowest first."""
    with open(f"{ROOT}/crates.txt", encoding="utf-8") as text:
        return re.findall(r"^(tq\w*):", text.read(), re.MULTILINE)


def aliases_of(crate):
    """Returns the types of the crate that are another type's name, each with that type."""
    found = {}
    for path in files_of(crate):
        with open(path, encoding="utf-8") as text:
            found |= dict(re.findall(r"^pub type (\w+) = (\w+)", text.read(), re.MULTILINE))
    return found


def exported_by(crate):
    """Returns the names that the crate hands on, its own and those of other crates, and its public modules."""
    with open(f"{ROOT}/crates/{crate}/src/lib.rt", encoding="utf-8") as text:
        text = text.read()
    names = set(re.findall(r"^pub (?:type|struct|enum|trait|fn) (\w+)", text, re.MULTILINE))
    for listed in re.findall(r"^pub use [\w:]+::(\w+|\{[^}]*\});", text, re.MULTILINE):
        names |= set(re.findall(r"\w+", listed))
    return names, re.findall(r"^pub mod (\w+);", text, re.MULTILINE)


def public_functions(crate):
    """Yields the functions that another crate can call, a trait's own among them, each with its name as it is called."""
    names, modules = exported_by(crate)
    names |= {named for alias, named in aliases_of(crate).items() if alias in names}
    for path in files_of(crate):
        module = os.path.basename(path).removesuffix(".rt")
        for it in functions_of(path):
            if it.is_pub and ((it.owner or it.name) in names or module in modules):
                within = f"{module}::" if module in modules and (it.owner or it.name) not in names else ""
                yield within + (f"{it.owner}::{it.name}" if it.owner else it.name), it
