"""The structs and functions that headers of C declare, and sources of Rust and of Rattle, in one form.

A type is a scalar's name; the name of a struct of the same `Declared`; an array, `("array", type, count)`; or as a parameter a pointer,
`("pointer", is_const, type)`. A place is a scalar in a struct, by the last word of its name, with where it begins, its size and its type.
"""
import re

SIZES = {"u8": 1, "bool": 1, "u32": 4, "u64": 8, "size": 8, "address": 8, "nothing": 0}
OF_C = {"uint8_t": "u8", "bool": "bool", "uint32_t": "u32", "uint64_t": "u64", "size_t": "size"}
OF_RUST = {"usize": "size", "*mut u8": "address", "Global": "nothing"}
OF_CHECK = re.compile(r"^#ifdef RD_CHECK\n(?:.*\n)*?(?:#else\n((?:.*\n)*?))?#endif\n", re.M)


class Declared:
    """Structs: of each name its fields with their types. Functions: of each name its parameters, with their names and types. What a file
    declares, it declares without RD_CHECK."""

    def __init__(self, structs, functions):
        self.structs, self.functions = structs, functions

    def alignment(self, kind):
        if isinstance(kind, tuple):
            return self.alignment(kind[1])
        return max((self.alignment(of) for _, of in self.structs[kind]), default=1) if kind in self.structs else max(SIZES[kind], 1)

    def size(self, kind):
        """The bytes of a type, by the rules of C for a struct on x86-64."""
        if isinstance(kind, tuple):
            return self.size(kind[1]) * kind[2]
        if kind not in self.structs:
            return SIZES[kind]
        return rounded(max((at + self.size(of) for _, at, of in self.fields(kind)), default=0), self.alignment(kind))

    def fields(self, struct):
        """The fields of a struct with where they begin."""
        at = 0
        for name, kind in self.structs[struct]:
            at = rounded(at, self.alignment(kind))
            yield name, at, kind
            at += self.size(kind)

    def places(self, kind, name="", begin=0):
        """The places of a type, one after another."""
        if kind not in self.structs:
            return [(name, begin, self.size(kind), kind)] if self.size(kind) else []
        return [place for field, at, of in self.fields(kind) for place in self.places(of, field, begin + at)]

    def given(self, kind):
        """What a parameter of the type hands over, in the same form whatever its structs are called."""
        if kind[0] == "pointer":
            return "pointer to const" if kind[1] else "pointer", self.size(kind[2]), self.places(kind[2])
        return "value", self.size(kind), self.places(kind)


def rounded(at, to):
    return -(-at // to) * to


def unchecked(text):
    """A header as it is without RD_CHECK."""
    return OF_CHECK.sub(lambda found: found.group(1) or "", text)


def of_header(text):
    """What a header of C declares, and defines for the library."""
    text = re.sub(r"/\*.*?\*/", "", unchecked(text), flags=re.S)
    structs = {name: [c_field(*row) for row in re.findall(r"^ +(\w+) (\*?)(\w+)(?:\[(\d+)\])?;", body, re.M)]
               for body, name in re.findall(r"^typedef struct rd_\w+ \{\n(.*?)^\} (rd_\w+);", text, re.M | re.S)}
    functions = {name: [c_parameter(part) for part in of.split(",") if part != "void"]
                 for name, of in re.findall(r"^uint64_t (rd_\w+)\(([^)]*)\);", text, re.M)}
    return Declared(structs, functions)


def c_field(kind, star, name, count):
    kind = "address" if star else OF_C.get(kind, kind)
    return name, ("array", kind, int(count)) if count else kind


def c_parameter(text):
    const, kind, star, name = re.fullmatch(r"\s*(const )?(\w+) (\*?)(\w+)\s*", text).groups()
    kind = OF_C.get(kind, kind)
    return name, ("pointer", bool(const), kind) if star else kind


def of_sources(texts, exports):
    """What sources of Rust or Rattle declare: structs that are laid out as in C, and functions with names of the library. `exports` is what
    is written before such a function."""
    text = re.sub(r"//.*", "", "\n".join(texts))
    structs, generic = {}, {}
    for name, of, body in re.findall(r"#\[repr\(C\)\]\s+(?:#\[[^\n]*\]\s+)*pub struct (\w+)(?:<(\w+)>)? \{\n(.*?)^\}", text, re.M | re.S):
        fields = re.findall(r"^ +(?:pub )?(\w+): ([^,\n]+),", body, re.M)
        if of:
            generic[name] = of, fields
        else:
            structs[name] = [(field, rust_type(kind)) for field, kind in fields]
    for name, (of, fields) in generic.items():
        for given in set(re.findall(r"\b%s<(\w+)>" % name, text)) & {*structs, *SIZES}:
            structs["%s<%s>" % (name, given)] = [(field, rust_type(given if kind == of else kind)) for field, kind in fields]
    functions = {name: [pair for part in re.findall(r"(\w+: [^,]+)", of) for pair in rust_parameters(part)]
                 for name, of in re.findall(exports + r" fn (rd_\w+)\(([^)]*)\) -> u64", text)}
    return Declared(structs, functions)


def rust_type(text):
    found = re.fullmatch(r"\[(\w+); (\d+)\]", text)
    return ("array", rust_type(found.group(1)), int(found.group(2))) if found else OF_RUST.get(text, text)


def rust_parameters(text):
    """A parameter, or the two that a slice is. What has no size isn't handed over."""
    name, _, kind = text.strip().partition(": ")
    found = re.fullmatch(r"(\*const |\*mut |&mut |&)(\[?)([\w<>]+)\]?", kind.strip())
    if not found:
        return [] if rust_type(kind.strip()) == "nothing" else [(name, rust_type(kind.strip()))]
    pointer = name, ("pointer", found.group(1) in ("*const ", "&"), rust_type(found.group(3)))
    return [pointer, ("n", "size")] if found.group(2) else [pointer]
