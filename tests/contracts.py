"""The functions of the crates, with their contracts, as the sources have them."""
import os
import re
from dataclasses import dataclass

from reporting import TOP, crates_of, files, read

# The brace of a body stands at the margin of `fn` where there is a contract, and behind the signature where there is none; a body may end in its line.
# What stands deeper than `fn`, or begins with the signature's closing bracket, is its signature and its contract.
FUNCTION = re.compile(
    r'^( *)((?:#\[[^\n]*\]\s+(?://[^\n]*\s+)*)*)((?:pub(?:\(crate\))? )?(?:extern "C" )?fn (\w+)'
    r'([^\n{]*(?:\n\1(?: [^\n]*|\)[^\n{]*))*))(?: |\n\1)\{([^\n]*(?=\}$)|\n.*?(?=^\1\}))',
    re.MULTILINE | re.DOTALL)
IMPLEMENTATION = re.compile(r"^impl(?:<[^>]*>)? (?:\w+ for )?(\w+)", re.MULTILINE)
CONVERSION = re.compile(r"^( *)impl(?:<[^\n]*?>)? From<([^\n]+?)> for ([^\n{]+?) \{(.*?)^\1\}", re.MULTILINE | re.DOTALL)
GIVES = re.compile(r"^ +ghost\s+from_gives\s*=\s*\{\s*λ\s+\w+\s+(\w+)\.\s+(.*?)\s*\}\s*;", re.MULTILINE | re.DOTALL)
PRIVATE = re.compile(r"^(?:pub\(crate\) )?(?:struct|enum|type) (\w+)", re.MULTILINE)
REQUIRES = re.compile(r"^ +requires\b", re.MULTILINE)
ENSURES = re.compile(r"^ +ensures (?:\w+ )?\{((?:[^{}]|\{(?:[^{}]|\{[^{}]*\})*\})*)\}", re.MULTILINE)
RESULT = re.compile(r"(?<![\w.])result\b")
LENT = re.compile(r"(\w+): &mut |&mut (self)\b")
IMPORT = re.compile(r"^ghost use Rattle\.(\w+)\.specs\.([\w.]+)\.\{([^}]*)\};", re.MULTILINE)
ALIAS = re.compile(r"(\S+) as (\S+)")

@dataclass
class Function:
    crate: str
    source: str  # the file, from the root
    module: str  # inside the crate, '' at its root
    owner: str  # the type that it is a method of or, of a conversion, that is converted; or ''
    name: str
    public: bool
    contract: str  # as it is written, with attributes and the signature in front
    body: str
    asks: bool  # whether it has a `requires`
    equations: list  # what is ensured, where `result` is the result
    lent: list  # the parameters that it may write to
    imports: dict  # name in a contract -> (crate, file of specs/, name there)

    @property
    def path(self):
        return "::".join(part for part in (self.crate, self.module, self.owner, self.name) if part)


def flat(text):
    return " ".join(text.split())


def imports_of(code):
    found = {}
    for crate, module, names in IMPORT.findall(code):
        for name in filter(None, map(str.strip, names.split(","))):
            alias = ALIAS.fullmatch(name)
            old, new = alias.groups() if alias else (name, name)
            found[new] = (crate, module.split(".")[0], old)
    return found


def owner_at(code, place, indented):
    owners = [found.group(1) for found in IMPLEMENTATION.finditer(code) if found.start() < place]
    return owners[-1] if indented and owners else ""


def conversion_at(code, place):
    """The type that a `from` at the place converts, and the equation that its implementation states, if any; nothing of a type that the file keeps to itself."""
    for found in CONVERSION.finditer(code):
        _, converted, made, body = found.groups()
        if found.start() < place < found.end() and not set(re.findall(r"\w+", converted + " " + made)) & set(PRIVATE.findall(code)):
            gives = GIVES.search(body)
            return converted, [flat(re.sub(r"\b%s\b" % gives.group(1), "result", gives.group(2)))] if gives else []
    return "", []


def functions_of(crate, top=TOP):
    folder = os.path.join(top, "crates", crate, "src")
    for source in files(folder, "**", "*.rt"):
        code, imports = read(source), imports_of(read(source))
        module = os.path.splitext(os.path.relpath(source, folder))[0].replace(os.sep, "::")
        for found in FUNCTION.finditer(code):
            indent, attributes, contract, name, head, body = found.groups()
            owner, equations = owner_at(code, found.start(), indent), [flat(clause) for clause in ENSURES.findall(head)]
            converted, stated = conversion_at(code, found.start()) if name == "from" else ("", [])
            yield Function(crate, os.path.relpath(source, top), "" if module == "lib" else module, converted or owner, name,
                           contract.startswith("pub ") or bool(converted), attributes + contract, body,
                           bool(REQUIRES.search(head)), stated or equations,
                           [name or own for name, own in LENT.findall(ENSURES.sub("", head))], imports)


def libraries():
    """In the order of crates.txt, each behind what it stands on."""
    return [crate for crate in crates_of(TOP) if os.path.exists(os.path.join(TOP, "crates", crate, "src", "lib.rt"))]


def public_functions():
    return [function for crate in libraries() for function in functions_of(crate) if function.public]
