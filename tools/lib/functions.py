"""The functions of a crate's sources: their names as the prover prints them, the lines that they take, their signatures and contracts."""
import re
import textwrap
from dataclasses import dataclass, field

FUNCTION = re.compile(r"^(\s*)(?:pub(?:\([a-z]+\))?\s+)?(?:const\s+)?(?:unsafe\s+)?(?:final\s+)?(?:extern\s+\"C\"\s+)?fn\s+(\w+)")
CLAUSE = re.compile(r"^\s*(requires|ensures)\*?\s+(?:(\w+)\s+)?\{")
IMPL = re.compile(r"^(\s*)impl\b(.*)$")
# The impl of a type at one argument: `impl Cached<u64>`.
AT_ONE = re.compile(r"^impl \w+<(\w+)> \{")
TRAIT = re.compile(r"^(\s*)(?:pub(?:\([a-z]+\))?\s+)?trait\s+(\w+)")


@dataclass(frozen=True)
class Function:
    """A function with its file, its first and last line, counted from 0, and the type and trait of the impl that it stands in, and the type's
    argument if the impl is for that one alone."""

    name: str
    file: str
    first: int
    last: int
    module: tuple
    of_type: str = ""
    of_trait: str = ""
    in_trait: bool = False
    argument: str = ""
    trait_arguments: str = ""
    has_body: bool = True

    def printed(self):
        """The end of the name by which the prover knows it. A method's name stands below its type, wherever the impl is."""
        if not self.of_type:
            return "::".join([*self.module, self.name])
        if self.of_trait:
            return "%s%s%s::%s" % (self.of_type[:1].upper() + self.of_type[1:], self.of_trait, self.trait_arguments, self.name)
        return "%s::%s" % ("+".join(filter(None, (self.of_type, self.argument))), self.name)


def type_and_trait(head):
    """What the head of an impl, behind the word, is for: `<K> Display for Name<K>` is for Name, and of Display."""
    depth, plain = 0, ""
    for letter in head.split(" where ")[0].split("{")[0]:
        depth += {"<": 1, ">": -1}.get(letter, 0)
        plain += letter if depth == 0 and letter != ">" else ""
    # An impl for a reference is named as if `Ref` were its type.
    names = [word.split("::")[-1] for word in re.findall(r"[\w:]+|\(\)", re.sub(r" for &\w+", " for Ref", plain))]
    if "for" in names:
        at = names.index("for")
        return names[min(at + 1, len(names) - 1)], names[at - 1]
    return names[0] if names else "", ""


def parts_of(text):
    """The text between the angle brackets that a text begins with, split at its commas, and what follows them."""
    depth, parts = 0, [""]
    for at, letter in enumerate(text):
        depth += {"<": 1, ">": -1}.get(letter, 0)
        if not depth:
            return [part.strip() for part in parts if letter == ">"], text[at + (letter == ">"):]
        if depth == 1 and letter == ",":
            parts.append("")
        elif depth > 1 or letter != "<":
            parts[-1] += letter
    return [], text


def trait_arguments(head):
    """The arguments of an impl's trait as the prover's names have them: `U64Page` of `Loader<u64, Page<K>>`, without the impl's own parameters."""
    parameters, rest = parts_of(head.strip())
    trait, _, arguments = rest.partition(" for ")[0].partition("<")
    own = [re.split(r"\W", parameter)[0] for parameter in parameters]
    given = [one.partition("<")[0] for one in parts_of("<" + arguments)[0]] if arguments and " for " in rest else []
    return "".join(one[:1].upper() + one[1:] for one in given if one not in own and one.isidentifier())


@dataclass
class Sources:
    """All functions of a crate."""

    functions: list = field(default_factory=list)

    @classmethod
    def of(cls, crate):
        found = cls()
        for path in sorted((crate / "src").rglob("*.rt")):
            found.functions += functions_of(path, crate)
        return found

    def named(self, call, files):
        """The functions that `Type::method`, `Trait::method` or `function` can mean; those of the files come first."""
        kind, _, name = call.rpartition("::")
        found = [one for one in self.functions if one.name == name and one.has_body and (not kind or kind in (one.of_type, one.of_trait))]
        exact = [one for one in found if kind == one.of_type] or found
        return [one for one in exact if one.file in files] or exact

    def holding(self, file, line):
        """The innermost function of the file that has the line, or none."""
        holders = [one for one in self.functions if one.file == file and one.first <= line <= one.last]
        return min(holders, key=lambda one: one.last - one.first, default=None)


def owners_of(lines):
    """Of each line the `impl` or `trait` that it is in: the indentation, the type, the trait, whether it is a trait, the type's argument, and those
    of the trait."""
    owner, owners = None, []
    for at, line in enumerate(lines):
        if owner and line.startswith(owner[0] + "}"):
            owner = None
        impl, trait = IMPL.match(line), TRAIT.match(line)
        if impl:
            head = " ".join(" ".join(lines[at:at + 8]).split("{")[0].split())
            at_one = AT_ONE.match(line)
            rest = IMPL.match(head).group(2)
            owner = (impl.group(1), *type_and_trait(rest), False, at_one.group(1) if at_one else "", trait_arguments(rest))
        elif trait:
            owner = (trait.group(1), trait.group(2), "", True, "", "")
        owners.append(owner)
    return owners


def functions_of(path, crate):
    """The functions of a file. rustfmt's indentation tells where a function and an impl end."""
    inside = path.relative_to(crate / "src").with_suffix("")
    module = () if str(inside) in ("lib", "main") else tuple(part for part in inside.parts if part != "mod")
    lines, found = path.read_text().split("\n"), []
    for at, (line, owner) in enumerate(zip(lines, owners_of(lines))):
        function = FUNCTION.match(line)
        if function:
            last, has_body = end_of(lines, at, function.group(1))
            kind = owner[1:] if owner and len(function.group(1)) > len(owner[0]) else ("", "", False, "", "")
            found.append(Function(function.group(2), str(path.relative_to(crate)), at, last, module, *kind, has_body=has_body))
    return found


def end_of(lines, at, indent):
    """The last line of the function that begins at a line, and whether it has a body."""
    depth = 0
    for number in range(at, len(lines)):
        line = lines[number].split("//")[0].rstrip()
        depth += line.count("{") - line.count("}")
        if line.startswith(indent + "}") or not depth and (line.endswith(" {}") or line == indent + "{}"):
            return number, True
        if line.endswith(";") and not depth:
            return number, False
    return at, False


def body_at(lines, function):
    """The line on which the body of a function begins: that of its brace, which ends the signature or follows the contract."""
    depth = 0
    for number in range(function.first, function.last):
        plain = lines[number].split("//")[0].rstrip()
        if not depth and plain.endswith(("{", "{}")) and not CLAUSE.match(plain):
            return number
        depth += plain.count("{") - plain.count("}")
    return function.last


def braced(lines, number):
    """The text from the first brace of a line to the one that closes it."""
    text, depth = "", 0
    for line in lines[number:]:
        for c in line[line.index("{") :] if not text else line:
            depth += {"{": 1, "}": -1}.get(c, 0)
            text += c
            if depth == 0:
                return text
        text += "\n"
    return text


def above(lines, at):
    """The comment above a line, without its slashes, and the attributes."""
    comment, attributes = [], []
    for line in reversed(lines[:at]):
        line = line.strip()
        if not line.startswith(("//", "#[")):
            break
        if line.startswith("#["):
            attributes.append(line)
        else:
            comment.insert(0, re.sub(r"^/+ ?", "", line).rstrip())
    return comment, attributes


def head_of(lines, at):
    """The signature of the function that begins at a line, and its contract: the clauses with the comments between them."""
    signature, contract, depth = [], [], 0
    for line in lines[at:]:
        plain = line.split("//")[0].rstrip()
        if not contract and not line.lstrip().startswith("//") and not CLAUSE.match(line):
            signature.append(re.sub(r"\s*(?:\{\}?|;)$", "", line))
            if plain.endswith(("{", "{}", ";")):
                break
            continue
        if not depth and plain.strip() in ("{", "{}"):
            break
        depth += plain.count("{") - plain.count("}")
        contract.append(re.sub(r"(?<=\});$", "", line))
        if not depth and plain.endswith("};"):
            break
    return tuple(textwrap.dedent("\n".join(part)).strip("\n") for part in (signature, contract))
