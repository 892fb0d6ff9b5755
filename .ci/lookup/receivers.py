"""Whose function a call in Rattle calls: the type of its receiver, as far as the text tells it.

The text tells the type of `self`, of parameters, of a `let` with a type or from a call whose result is declared, of fields of
structs, of what a pattern takes out of a variant, and of the elements of slices and vectors.
"""

import copy
import re

from .code import functions_of

OPENING, CLOSING = "([{<", ")]}>"
WRAPPERS = ("Box", "Arc", "Rc", "Pin")
RESULTS = ("Result", "Option")
# Types whose methods may be those of what they guard.
GUARDS = re.compile(r"Guard$|^Ref(Mut)?$|^Cow$|^Mutex|^RwLock")
LISTS = ("Vec", "Slice", "Iter", "VecDeque")


def parts(text, separator=","):
    """The text cut at the separators that are in no brackets."""
    found, depth, begin = [], 0, 0
    for at, letter in enumerate(text):
        if letter in OPENING:
            depth += 1
        elif letter in CLOSING and text[at - 1 : at + 1] not in ("->", "=>"):
            depth -= 1
        elif letter == separator and depth == 0:
            found.append(text[begin:at].strip())
            begin = at + 1
    return [part for part in (*found, text[begin:].strip()) if part]


def closed(text, at):
    """Where the bracket that opens there is closed, one behind it."""
    depth = 0
    for here in range(at, len(text)):
        if text[here] in OPENING:
            depth += 1
        elif text[here] in CLOSING and text[here - 1 : here + 1] not in ("->", "=>"):
            depth -= 1
            if depth == 0:
                return here + 1
    return len(text)


def split_type(text):
    """The name of a type without path and reference, and its arguments: `&'a x::Vec<T, A>` is Vec of T and A."""
    text = re.sub(r"^(?:&\s*|'\w+ |mut |dyn |impl |const )+", "", (text or "").strip().strip("()").strip())
    text = re.sub(r"^(?:&\s*|'\w+ |mut |dyn |impl )+", "", text)
    if text.startswith("["):
        return "Slice", [text[1:].split(";")[0].rstrip("]").strip()]
    found = re.match(r"(?:\w+::)*(\w+)(?:::)?(<.*>)?", text, re.S)
    return (found[1], parts(found[2][1:-1]) if found[2] else []) if found else (None, [])


def parameters(text):
    """The type parameters between < and > with their bounds."""
    found = {}
    for part in parts(text):
        name, _, bounds = part.removeprefix("const ").partition(":")
        found[name.strip()] = re.findall(r"(?:\w+::)*(\w+)", bounds)
    return found


class Signature:
    """What stands after `fn` at that place of a text."""

    def __init__(self, text, at):
        self.generics, self.takes, self.returns = {}, {}, None
        at = re.compile(r"\w+").match(text, at).end()
        if text[at] == "<":
            end = closed(text, at)
            self.generics, at = parameters(text[at + 1 : end - 1]), end
        end = closed(text, at)
        for part in parts(text[at + 1 : end - 1]):
            name, colon, type_of = part.partition(":")
            if colon:
                self.takes[name.removeprefix("mut ").strip()] = type_of.strip()
        result = re.compile(r"\s*->\s*").match(text, end)
        if result:
            until = re.compile(r"(?: \{)?\n|;| where\b").search(text, result.end())
            self.returns = text[result.end() : until.start() if until else len(text)].strip()


class Rattle:
    """The types, fields, variants and functions of all .rt files, by name and crate."""

    def __init__(self, texts):
        self.texts = {path: text for path, text in texts.items() if path.endswith(".rt")}
        self.fields, self.variants, self.signatures, self.free = {}, {}, {}, {}
        self.generics, self.aliases, self.traits, self.methods, self.all_traits = {}, {}, {}, {}, set()
        for path, text in self.texts.items():
            self.read(path.split("/")[1], text)

    def read(self, crate, text):
        for found in re.finditer(r"^\s*(?:pub(?:\(\w+\))? )?(struct|enum|trait|type) (\w+)(<)?", text, re.M):
            kind, name, at = found[1], found[2], found.end()
            if found[3]:
                end = closed(text, at - 1)
                self.generics[name] = list(parameters(text[at : end - 1]))
                at = end
            if kind == "type" and text.startswith(" = ", at):
                self.aliases[name] = text[at + 3 : text.find(";", at)]
            elif kind == "trait":
                self.all_traits.add(name)
            else:
                self.read_body(kind, name, crate, text, at)
            self.methods.setdefault(name, {}).setdefault(crate, set())
        for found in re.finditer(r"^impl\b(?:<.*?>)? ?([\w:<>, ]+) for (\w+)", text, re.M):
            self.traits.setdefault(found[2], set()).add(split_type(found[1])[0])
        owners, lines = functions_of(text), 1
        last = 0
        for found in re.finditer(r"\bfn (?=\w)", text):
            lines, last = lines + text.count("\n", last, found.start()), found.start()
            inside = owners[lines]
            name = re.compile(r"\w+").match(text, found.end())[0]
            if inside and inside.split("::")[-1] == name:
                of = self.signatures if "::" in inside else self.free
                of.setdefault(inside, {})[crate] = (text, found.end())
                if "::" in inside:
                    owner = inside.split("::")[0]
                    self.methods.setdefault(owner, {}).setdefault(crate, set()).add(name)

    def read_body(self, kind, name, crate, text, at):
        opening = re.compile(r"[({;]").search(text, at)
        if not opening or opening[0] == ";":
            return
        body = text[opening.end() : closed(text, opening.start()) - 1]
        body = re.sub(r"//.*", "", body)
        if kind == "struct":
            self.fields.setdefault(name, {})[crate] = fields_of(body, opening[0] == "{")
            return
        for part in parts(body):
            variant = re.match(r"(?:#\[.*?\]\s*)*(\w+)\s*([({])?", part)
            if variant and variant[2]:
                inner = part[variant.end() : part.rindex(")" if variant[2] == "(" else "}")]
                self.variants.setdefault(f"{name}::{variant[1]}", {})[crate] = fields_of(inner, variant[2] == "{")

    @staticmethod
    def of_crate(found, crate):
        """What a name is in a crate: its own, else the only one there is."""
        if not found or crate in found:
            return (found or {}).get(crate)
        return next(iter(found.values())) if len(found) == 1 else None

    def functions(self, name):
        """The functions of a type or trait."""
        return set().union(*self.methods.get(name, {}).values())

    def returned(self, name, crate):
        """The declared result of a function."""
        place = self.of_crate((self.signatures if "::" in name else self.free).get(name), crate)
        return Signature(*place).returns if place else None

    def calls(self, path, name, owner):
        """For each line of a file that calls a function of that name, whether it is that of the owner: True, False, or None
        where the text doesn't tell."""
        text, found = self.texts[path], {}
        crate, inside = path.split("/")[1], functions_of(self.texts[path])
        for call in re.finditer(rf"(\.|::)\s*{re.escape(name)}(?:::<[^()]*>)?\(", text):
            line = text.count("\n", 0, call.start(1) + 1) + 1
            within = Scope(self, text, call.start(), inside[line], crate)
            if call[1] == "::":
                head = re.search(r"(\w+)(?:::<[^()]*>|>)?$", text[: call.start()])
                answer = within.is_owner(head[1] if head else None, name, owner)
            else:
                answer = within.is_owner(within.type_of(within.receiver(call.start())), name, owner)
            number = text.count("\n", 0, call.end()) + 1
            # of several calls in a line the surest counts
            found[number] = max(found.get(number, False), answer, key=[False, None, True].index)
        return found


def fields_of(body, is_named):
    """The types of fields, by name or by number."""
    if not is_named:
        return {str(at): re.sub(r"^pub(\(\w+\))? ", "", part) for at, part in enumerate(parts(body))}
    found = {}
    for part in parts(re.sub(r"#\[.*?\]\s*", "", body)):
        name, colon, type_of = part.partition(":")
        if colon:
            found[re.sub(r"^pub(\(\w+\))? ", "", name).strip()] = type_of.strip()
    return found


class Scope:
    """What names mean at a place of a text, in the function that it is in."""

    def __init__(self, rattle, text, at, inside, crate):
        self.rattle, self.text, self.here, self.crate = rattle, text, at, crate
        owner, _, name = (inside or "").rpartition("::")
        self.owner = owner or None
        begins = [found for found in re.finditer(rf"\bfn (?={name}\b)", text[:at])] if name else []
        self.begin, self.generics, self.takes = begins[-1].end() if begins else at, {}, {}
        if begins:
            signature = Signature(text, self.begin)
            self.generics, self.takes = dict(signature.generics), signature.takes
            of_impl = re.findall(r"^impl<(.*)> .*\{", text[: self.begin], re.M)
            if self.owner and of_impl:
                self.generics.update(parameters(of_impl[-1].split("> ")[0]))

    def is_owner(self, type_of, name, owner):
        """Whether a value of that type has the owner's function; None if the text doesn't tell."""
        head, _ = self.bare(type_of)
        if head is None or GUARDS.search(head):
            return None
        traits, methods = self.rattle.traits, self.rattle.methods
        if head in self.generics or head in methods and head in traits.get(owner, ()):
            # a type parameter, or a trait that the owner has too
            bounds = {head, *self.generics.get(head, ())}
            return True if owner in bounds else None if bounds & traits.get(owner, set()) else False
        if owner in {head, *traits.get(head, ())}:
            return True
        if head not in methods:
            return False
        # a type of ours that has no such function was guessed wrong
        return False if any(name in self.rattle.functions(one) for one in (head, *traits.get(head, ()))) else None

    def bare(self, type_of):
        """A type without what its methods are found through."""
        head, arguments = split_type(type_of)
        for _ in range(4):
            if head == "Self":
                head, arguments = self.owner, []
            elif head in WRAPPERS and arguments:
                head, arguments = split_type(arguments[0])
            elif head in self.rattle.aliases and head not in self.generics:
                head, arguments = split_type(self.rattle.aliases[head])
        return head, arguments

    # ---- expressions

    def receiver(self, end):
        """The expression that ends there: names, fields, calls and indices with points between them."""
        text, at = self.text, end
        while at > self.begin:
            if text[at] == "." and text[at - 1].isspace():
                at -= len(re.search(r"\s*$", text[max(0, at - 80) : at])[0])
            if text[at - 2 : at] == "..":
                break
            letter, turbofish = text[at - 1], re.search(r"::<[^()]*>$", text[max(0, at - 80) : at])
            if letter in ")]":
                at = opened(text, at - 1)
            elif turbofish:
                at -= len(turbofish[0])
            elif letter.isalnum() or letter in "_.?:":
                at -= 1
            else:
                break
        return text[at:end]

    def type_of(self, expression, depth=0):
        """The type of an expression; None if the text doesn't tell."""
        expression = re.sub(r"^(?:&\s*|mut |\*)+", "", expression.strip())
        if depth > 6 or not expression:
            return None
        base = re.match(r"(?:\w+(?:::<[^()]*?>)?::)*\w+(?:::<[^()]*?>)?", expression)
        if not base:
            return None
        rest, name = expression[base.end() :], re.sub(r"::<[^()]*>", "", base[0])
        if rest.startswith("("):
            end = closed(rest, 0)
            found, rest = self.of_call(name), rest[end:]
        elif re.match(r"\s*\{", rest) and name[0].isupper():
            return name if "::" not in name else name.split("::")[0]
        else:
            found = self.owner if name == "self" else self.of_name(name, depth + 1)
        return self.after(found, rest, depth)

    def of_call(self, name):
        owner, _, last = name.rpartition("::")
        owner = owner.split("::")[-1]
        if owner == "Self":
            owner = self.owner
        if f"{owner}::{last}" in self.rattle.variants:
            return owner
        if owner and owner[0].isupper():
            found = self.rattle.returned(f"{owner}::{last}", self.crate)
            return re.sub(r"\bSelf\b", owner, found) if found else None
        return self.rattle.returned(last, self.crate)

    def after(self, type_of, rest, depth):
        """The type of what the fields, calls and `?` behind an expression lead to."""
        while type_of and rest:
            rest = rest.lstrip()
            step = re.match(r"\.\s*(\w+)(?:::<[^()]*>)?(\()?", rest)
            if rest[:1] == "?":
                head, arguments = self.bare(type_of)
                type_of, rest = (arguments[0] if head in RESULTS and arguments else None), rest[1:]
            elif rest[:1] == "[":
                inner, end = rest[1 : closed(rest, 0) - 1], closed(rest, 0)
                head, arguments = self.bare(type_of)
                of = arguments[0] if head in LISTS and arguments else None
                type_of, rest = (type_of if ".." in inner else of), rest[end:]
            elif step and step[2]:
                end = closed(rest, step.end() - 1)
                type_of, rest = self.of_method(type_of, step[1]), rest[end:]
            elif step:
                type_of, rest = self.of_field(type_of, step[1]), rest[step.end() :]
            else:
                return None
        return type_of

    def of_field(self, type_of, name):
        head, arguments = self.bare(type_of)
        fields = self.rattle.of_crate(self.rattle.fields.get(head), self.crate) or {}
        return self.put_in(fields.get(name), head, arguments)

    def of_method(self, type_of, name):
        head, arguments = self.bare(type_of)
        if name in ("as_slice", "as_mut_slice", "as_ref", "as_mut", "iter", "by_ref", "map_err", "ok_or", "borrow"):
            return type_of
        if name == "clone":
            return f"Result<{type_of}, AllocError>"
        if name in ("unwrap_or", "unwrap_or_else", "unwrap", "expect") and head in RESULTS and arguments:
            return arguments[0]
        if name in ("get", "get_mut", "last", "last_mut", "first", "pop", "next") and head in LISTS and arguments:
            return f"Option<{arguments[0]}>"
        found = self.rattle.returned(f"{head}::{name}", self.crate)
        for bound in self.generics.get(head, ()):
            found = found or self.rattle.returned(f"{bound}::{name}", self.crate)
        return self.put_in(re.sub(r"\bSelf\b", head, found) if found else None, head, arguments)

    def put_in(self, type_of, head, arguments):
        """A declared type with the arguments in the places of the parameters."""
        for parameter, argument in zip(self.rattle.generics.get(head, ()), arguments):
            if type_of:
                type_of = re.sub(rf"\b{parameter}\b", lambda _: argument, type_of)
        return type_of

    # ---- names

    def of_name(self, name, depth):
        """The type of a name at its last binding."""
        before, bindings = self.text[self.begin : self.here], []
        for pattern, rule in BINDINGS if name in before else ():
            for found in re.finditer(pattern.replace("NAME", re.escape(name)), before):
                bindings.append((found.start(), rule, found))
        for at, rule, found in sorted(bindings, key=lambda it: -it[0]):
            value, is_whole = value_at(before, found.end())
            # a name isn't bound yet in the value that it is bound to
            if rule == "of_variant" and self.bound_field(name, found) is None:
                continue
            if is_whole or rule in ("of_variant", "of_arm", "unknown"):
                return self.until(self.begin + at).bound(rule, name, found, value, depth)
        return self.takes.get(name)

    def until(self, at):
        """The scope at an earlier place of the function."""
        earlier = copy.copy(self)
        earlier.here = at
        return earlier

    def bound(self, rule, name, found, value, depth):
        """The type that a binding gives to a name."""
        if rule == "typed":
            return re.split(r" =\s", value)[0]
        if rule == "assigned":
            return self.type_of(value, depth)
        if rule == "of_variant":
            return self.of_variant(name, found)
        if rule == "unknown":
            return None
        if rule == "of_arm":
            value = self.matched(found.start())
        head, arguments = self.bare(self.type_of(value, depth))
        if rule == "element":
            return arguments[0] if head in LISTS and arguments else None
        at = 1 if found[1] == "Err" else 0
        return arguments[at] if head in RESULTS and len(arguments) > at else None

    @staticmethod
    def bound_field(name, found):
        """The name and the number of the field that a pattern of a variant binds to a name; None if it doesn't bind it."""
        for at, part in enumerate(parts(found[3])):
            field, colon, bound = part.partition(":")
            if re.sub(r"^(ref |mut )+", "", (bound if colon else field).strip()) == name:
                return field.strip(), str(at)
        return None

    def of_variant(self, name, found):
        owner = self.owner if found[1] == "Self" else found[1]
        fields = self.rattle.of_crate(self.rattle.variants.get(f"{owner}::{found[2]}"), self.crate) or {}
        field, at = self.bound_field(name, found)
        return fields.get(at, fields.get(field))

    def matched(self, at):
        """What is matched by the arm there: behind the nearest `match` that is less indented."""
        before = self.text[self.begin : self.begin + at]
        indent = len(re.search(r"( *)[^\n]*$", before)[1])
        for found in reversed([*re.finditer(r"^( *)[^\n]*\bmatch ([^\n]*) \{$", before, re.M)]):
            if len(found[1]) < indent:
                return found[2]
        return ""


def opened(text, at):
    """Where the bracket that is closed there was opened."""
    pairs = {")": "(", "]": "["}
    depth = 0
    for here in range(at, -1, -1):
        if text[here] in pairs:
            depth += 1
        elif text[here] in pairs.values():
            depth -= 1
            if depth == 0:
                return here
    return 0


def value_at(text, at):
    """The expression that begins there, up to a semicolon, an `else` or a block, and whether its end is there."""
    depth = 0
    for here in range(at, len(text)):
        if text[here] in "([{":
            if text[here] == "{" and depth == 0 and not re.search(r"= (?:\w+::)*\w+ $", text[:here]):
                return text[at:here].rstrip().removesuffix(" else"), True
            depth += 1
        elif text[here] in ")]}":
            depth -= 1
        elif text[here] == ";" and depth == 0:
            return text[at:here], True
    return text[at:], False


BINDINGS = (
    (r"\blet (?:mut )?NAME: ", "typed"),
    (r"\blet (?:mut )?NAME = ", "assigned"),
    (r"\blet (Ok|Some|Err)\((?:mut )?NAME\) = ", "taken_out"),
    (r"\bfor NAME in ", "element"),
    (r"\b(?:\w+::)*(\w+)::(\w+)\s*\(([^()]*\bNAME\b[^()]*)\)(?=\s*(?:=>|\||=[^=]| if ))", "of_variant"),
    (r"\b(?:\w+::)*(\w+)::(\w+)\s*\{([^{}]*\bNAME\b[^{}]*)\}(?=\s*(?:=>|\||=[^=]| if ))", "of_variant"),
    (r"(?<![:\w])(Ok|Some|Err)\((?:mut )?NAME\) (?:if [^\n]*)?=>", "of_arm"),
    (r"\|[^|\n]*\bNAME\b[^|\n]*\| ", "unknown"),
    (r"\blet \([^()\n]*\bNAME\b[^()\n]*\) = ", "unknown"),
    (r"\bfor \([^()\n]*\bNAME\b[^()\n]*\) in ", "unknown"),
)
