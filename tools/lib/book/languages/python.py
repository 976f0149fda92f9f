"""The calls of embed/python: what the package exports, by docstrings, those of the native module by its sources in C and its stubs."""
import ast
import re

from places import files

from . import EMBED, Call, Group, fenced, line_at

PACKAGE = EMBED / "python" / "rookdresser"
NATIVE = re.compile(r'\{"(\w+)",[^"{}]*?((?:"(?:[^"\\]|\\.)*"\s*)+)\}')


def calls():
    names = exported()
    groups, functions = [], []
    trees = [(path, ast.parse(path.read_text())) for path in files(PACKAGE, "_*.py")]
    classes = {node.name: (node, path) for path, tree in trees for node in tree.body if isinstance(node, ast.ClassDef)}
    for path, tree in trees:
        for node in tree.body:
            if getattr(node, "name", None) == "_Info":
                # What a function gets that is cached.
                functions += [Call("cached.%s" % call.name.partition(".")[2], call.declared, call.doc, path, call.line) for call in of_class(node, path).calls]
            if getattr(node, "name", None) not in names:
                continue
            if isinstance(node, ast.ClassDef):
                groups.append(of_class(node, path))
                # With the calls of a base that the package doesn't export.
                for base in (ast.unparse(base).partition("[")[0] for base in node.bases):
                    if base in classes and base not in names:
                        groups[-1].calls += of_class(*classes[base], node.name).calls
            elif isinstance(node, (ast.FunctionDef, ast.AsyncFunctionDef)):
                functions.append(Call(node.name, signature(node), docs_of(node), path, node.lineno - 1))
    cache = next(group for group in groups if group.name == "Cache")
    cache.calls = [call for call in native_calls() if call.name not in {one.name for one in cache.calls}] + cache.calls
    groups.sort(key=lambda group: group is not cache)
    return [groups[0], Group("Functions", None, sorted(functions, key=lambda call: call.name)), *groups[1:]]


def exported():
    """The names in `__all__`."""
    found = re.search(r"^__all__ = (\[[^\]]*\])", (PACKAGE / "__init__.py").read_text(), re.M)
    return ast.literal_eval(found.group(1))


def of_class(node, path, name=None):
    """A class with its public calls and fields. The calls may be named for a class below it."""
    made = next((part for part in node.body if isinstance(part, ast.FunctionDef) and part.name == "__init__"), None)
    fields = "\n".join("    " + ast.unparse(part) for part in node.body if isinstance(part, ast.AnnAssign))
    bases = ", ".join(ast.unparse(base) for base in node.bases)
    declared = "class %s(%s)" % (node.name, arguments(made) if made and node.name == "Cache" else bases) + (":\n" + fields if fields else "")
    mine = [Call("%s.%s" % (name or node.name, part.name), signature(part), docs_of(part), path, part.lineno - 1) for part in node.body
            if isinstance(part, (ast.FunctionDef, ast.AsyncFunctionDef)) and not part.name.startswith("_")]
    return Group(node.name, Call(node.name, declared, docs_of(node), path, node.lineno - 1), mine)


def arguments(node):
    """The arguments without `self`, one a line if they are many."""
    text = re.sub(r"^self(, )?", "", ast.unparse(node.args))
    return text if len(text) < 80 else "\n    %s\n" % ",\n    ".join(re.split(r", (?=\w+(?::| =|=))", text))


def signature(node):
    kind = "async def" if isinstance(node, ast.AsyncFunctionDef) else "def"
    return "%s %s(%s)%s" % (kind, node.name, arguments(node), " -> " + ast.unparse(node.returns) if node.returns else "")


def docs_of(node):
    return markdown(ast.get_docstring(node) or "")


def native_calls():
    """The calls of the native module: their docstrings from the tables of its sources, their signatures from its stubs."""
    path = PACKAGE / "_native.pyi"
    table = next(node for node in ast.parse(path.read_text()).body if isinstance(node, ast.ClassDef) and node.name == "Table")
    declared = {}
    for node in table.body:
        if isinstance(node, ast.FunctionDef) and not node.name.startswith("_"):
            declared.setdefault(node.name, []).append(signature(node))
    found = {}
    for source in files(PACKAGE / "native", "*.c"):
        text = source.read_text()
        for row in NATIVE.finditer(text):
            doc = "".join(ast.literal_eval(part) for part in re.findall(r'"(?:[^"\\]|\\.)*"', row.group(2)))
            # Behind the signature that Python shows for the call.
            found[row.group(1)] = Call("Cache." + row.group(1), "", markdown(doc.rpartition("--\n\n")[2]), source, line_at(text, row.start()))
    for name, signatures in declared.items():
        call = found.get(name) or Call("Cache." + name, "", "", path, 0)
        call.declared = "\n".join(signatures)
        yield call


def markdown(doc):
    """A docstring as Markdown: its examples and what is set off by four spaces are code."""
    parts = []
    for part in doc.split("\n\n"):
        if part.startswith(">>>"):
            parts.append(fenced(part, "python"))
        elif re.match(r"`\w+` {2,}", part):
            parts += ["- " + re.sub(r"\s+", " ", row) for row in re.split(r"\n(?=`)", part)]
        else:
            parts.append(part)
    return re.sub(r"(\n- [^\n]*)\n(?=\n- )", r"\1", "\n" + "\n\n".join(parts)).strip("\n")
