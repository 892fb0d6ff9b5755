"""Tests of what ./where and .ci/documents look up: types of receivers, definitions, parts, words of newcomers, the map of folders."""
import os
import sys
import tokenize
import unittest

TOP = os.path.dirname(os.path.dirname(os.path.dirname(os.path.realpath(__file__))))
sys.dont_write_bytecode = True
sys.path.insert(0, os.path.join(TOP, ".ci"))
from lookup import code, definitions, edits, folders, objects, receivers, screen, words  # noqa: E402

TREE = """pub trait Walk {
    fn step(&self) -> u64;
}

pub struct Node<A: Allocator> {
    pub(crate) text: Text<A>,
    children: Vec<Node<A>, A>,
}

pub enum Place<A: Allocator> {
    Root,
    Below(Node<A>),
    Named { node: Node<A>, text: Text<A> },
}

pub struct Text<A: Allocator>(Vec<u8, A>);

impl<A: Allocator> Walk for Node<A> {
    fn step(&self) -> u64 {
        0
    }
}

impl<A: Allocator> Node<A> {
    pub fn copy(&self, alloc: A) -> Result<Node<A>, AllocError> {
        let text = self.text.copy(alloc)?;
        for child in self.children.as_slice() {
            child.copy(alloc)?;
        }
    }

    pub fn first(&self) -> Option<&Node<A>> {
        None
    }
}

impl<A: Allocator> Text<A> {
    pub fn copy(&self, alloc: A) -> Result<Text<A>, AllocError> {
        self.0
    }
}
"""

CALLER = """fn call<W: Walk>(node: &Node<Global>, text: Text<Global>, walk: &W, place: &Place<Global>) {
    node.copy(alloc);
    text.copy(alloc);
    let text = node.copy(alloc)?;
    text.copy(alloc);
    let Some(first) = node.first() else {
        return;
    };
    first.text.copy(alloc);
    node.children[0].copy(alloc);
    match place {
        Place::Below(one) => one.copy(alloc),
        Place::Named { node: other, text } => text
            .copy(alloc),
    }
    match node.first() {
        Some(found) => found.copy(alloc),
        None => unheard.copy(alloc),
    }
    let made: Text<Global> = make();
    made.copy(alloc);
    for at in 0..node.children.len() {
        Node::copy(node, alloc);
        Text::copy(made, alloc);
    }
    walk.step();
    node.step();
    guarded.lock(rt).copy(alloc);
}

fn again(one: &Node<Global>) {
    let one = one.text.copy(alloc)?;
    one.copy(alloc);
}
"""


MORE = """pub type Alias<A> = Node<A>;

pub struct GuardRail {
    pub node: Node<Global>,
}

pub struct NodeGuard<A: Allocator>(A);

impl GuardRail {
    pub fn copy(&self) -> u8 {
        0
    }
}

impl<A: Allocator> NodeGuard<A> {
    pub fn copy(&self) -> u8 {
        0
    }

    pub fn text(&self) -> Text<A> {
        0
    }
}

impl<A: Allocator> Node<A> {
    pub fn new(alloc: A) -> Self {
        Self::new(alloc).copy(alloc);
    }
}

pub fn make() -> Text<Global> {
    0
}

pub struct Pair(pub Node<Global>, pub(crate) Text<Global>);
"""

# each line with the type whose function it calls; None where the text doesn't tell, and - for a type without such a function
LINES = (
    ("alias.copy(alloc);", "Node"),
    ("rail.copy(alloc);", "GuardRail"),
    ("rail.node.text.copy(alloc);", "Text"),
    ("guard.copy(alloc);", None),
    ("guard.text().copy(alloc);", "Text"),
    ("list[0].copy(alloc);", "Node"),
    ("list[1..].copy(alloc);", "-"),
    ("list[1..][0].copy(alloc);", "Node"),
    ("boxed.copy(alloc);", "Node"),
    ("place.text.copy(alloc);", None),
    ("make().copy(alloc);", "Text"),
    ("make::<u8>().copy(alloc);", "Text"),
    ("low::more::make().copy(alloc);", "Text"),
    ("let alias = more::make(); alias.copy(alloc);", "Text"),
    ("Node::new::<u8>(alloc).copy(alloc);", "Node"),
    ("unheard(1).copy(alloc);", None),
    ("Node::new(alloc).copy(alloc);", "Node"),
    ("low::tree::Node::new(alloc).copy(alloc);", "Node"),
    ("Place::Below(made).copy(alloc);", None),
    ("let alias = Text { text, children }; alias.copy(alloc);", "Text"),
    ("let alias = GuardRail::Named { text }; alias.copy(alloc);", "GuardRail"),
    ("maybe.unwrap().copy(alloc);", "Text"),
    ("maybe.as_ref().unwrap().copy(alloc);", "Text"),
    ("maybe?.copy(alloc);", "Text"),
    ("maybe.copy(alloc);", "-"),
    ("texts.pop()?.copy(alloc);", "Text"),
    ("texts.iter().next()?.copy(alloc);", "Text"),
    ("alias.clone()?.copy(alloc);", "Node"),
    ("for at in 0..alias.copy(alloc).len() {}", "Node"),
    ("texts.iter().map(|alias| alias.copy(alloc));", None),
    ("let (alias, other) = make(); alias.copy(alloc);", None),
    ("for (alias, other) in pairs { alias.copy(alloc) }", None),
    ("for alias in texts.iter() { alias.copy(alloc) }", "Text"),
    ("for alias in &mut texts { alias.copy(alloc) }", "Text"),
    ("for alias in &rail.node.children { alias.copy(alloc) }", "Node"),
    ("for alias in number { alias.copy(alloc) }", None),
    ("let alias: Text<Global> = alias.made(); alias.copy(alloc);", "Text"),
    ("let mut alias = make(); alias.copy(alloc);", "Text"),
    ("let Ok(alias) = tried; alias.copy(alloc);", "Text"),
    ("let Err(alias) = tried; alias.copy(alloc);", "Node"),
    ("if *alias.copy(alloc) == &mut 1 {}", "Node"),
    ("call(&alias.copy(alloc));", "Node"),
    ("number.copy(alloc);", "-"),
    ("pair.0.copy(alloc);", "Node"),
    ("pair.1.copy(alloc);", "Text"),
    ("pair.2.copy(alloc);", None),
    ("maybe[0].copy(alloc);", None),
    ("boxed[0].copy(alloc);", None),
    ("let Some(alias) = list else { return 0 }; alias.copy(alloc);", None),
    ("for alias in maybe { alias.copy(alloc) }", None),
    ("maybe.next()?.copy(alloc);", None),
    ("let Some(alias) = maybe else { return 0 }; alias.copy(alloc);", "Text"),
    ("let alias = maybe.unwrap(); alias.copy(alloc);", "Text"),
    ("match maybe { Some(alias) if number > 1 => alias.copy(alloc), _ => 0 };", None),
    *(
        (f"alias.{name}(1).copy(alloc);", "Node")
        for name in ("as_slice", "as_mut_slice", "as_ref", "as_mut", "iter", "by_ref", "map_err", "ok_or", "borrow")
    ),
    *((f"maybe.{name}(1).copy(alloc);", "Text") for name in ("unwrap_or", "unwrap_or_else", "unwrap", "expect")),
    *((f"alias.{name}(1).copy(alloc);", None) for name in ("unwrap", "expect", "get", "pop")),
    *(
        (f"texts.{name}(1)?.copy(alloc);", "Text")
        for name in ("get", "get_mut", "last", "last_mut", "first", "pop", "next")
    ),
)


class Receivers(unittest.TestCase):
    TEXTS = {"crates/low/src/tree.rt": TREE, "crates/high/src/caller.rt": CALLER}

    def lines(self, name, owner, answer, path="crates/high/src/caller.rt"):
        """The calls with that answer."""
        found = receivers.Rattle(self.TEXTS).calls(path, name, owner)
        lines = self.TEXTS[path].split("\n")
        return [lines[at - 1].strip() for at in sorted(found) if found[at] is answer]

    def test_each_way_to_know_a_type(self):
        of_node = [
            *(
                "node.copy(alloc);",
                "let text = node.copy(alloc)?;",
                "text.copy(alloc);",
                "node.children[0].copy(alloc);",
            ),
            *("Place::Below(one) => one.copy(alloc),", "Some(found) => found.copy(alloc),", "Node::copy(node, alloc);"),
        ]
        of_text = ["text.copy(alloc);", "first.text.copy(alloc);", ".copy(alloc),", "made.copy(alloc);"]
        of_text += ["Text::copy(made, alloc);", "let one = one.text.copy(alloc)?;", "one.copy(alloc);"]
        unknown = ["None => unheard.copy(alloc),", "guarded.lock(rt).copy(alloc);"]
        for owner, other, own, others in (("Node", "Text", of_node, of_text), ("Text", "Node", of_text, of_node)):
            self.assertEqual(self.lines("copy", owner, True), own, owner)
            self.assertEqual(self.lines("copy", owner, False), others, other)
            self.assertEqual(self.lines("copy", owner, None), unknown)

    def test_a_name_is_bound_behind_its_value(self):
        path = "crates/low/src/tree.rt"
        self.assertEqual(self.lines("copy", "Text", True, path), ["let text = self.text.copy(alloc)?;"])
        self.assertEqual(self.lines("copy", "Node", True, path), ["child.copy(alloc)?;"])

    def test_each_form_of_a_receiver(self):
        takes = "alias: &Alias<Global>, rail: GuardRail, guard: NodeGuard<Global>, list: &[Node<Global>], number: u64"
        takes += ", mut texts: Vec<Text<Global>>, boxed: Box<Node<Global>>, place: &Place<Global>"
        takes += ", maybe: Option<Text<Global>>, tried: Result<Text<Global>, Node<Global>>, pair: &Pair"
        for line, owner in LINES:
            caller = f"fn call({takes}) -> u8 {{\n    {line}\n}}\n"
            texts = {**self.TEXTS, "crates/low/src/more.rt": MORE, "crates/high/src/caller.rt": caller}
            for one in ("Node", "Text", "GuardRail"):
                found = receivers.Rattle(texts).calls("crates/high/src/caller.rt", "copy", one)
                self.assertEqual(found, {2: owner and owner == one}, (line, one))

    def test_the_own_type_of_a_function(self):
        texts = {**self.TEXTS, "crates/low/src/more.rt": MORE}
        line = MORE.split("\n").index("        Self::new(alloc).copy(alloc);") + 1
        for one, is_it in (("Node", True), ("Text", False)):
            self.assertEqual(receivers.Rattle(texts).calls("crates/low/src/more.rt", "copy", one), {line: is_it})

    def test_a_type_is_that_of_the_same_crate(self):
        """Two crates have a struct of one name; in a third one nothing tells which is meant."""
        of = "pub struct Pair<A: Allocator> {\n    it: %s<A>,\n}\n"
        caller = "fn call(pair: &Pair<Global>) {\n    pair.it.copy(alloc);\n}\n"
        texts = {**self.TEXTS, "crates/one/src/pair.rt": of % "Node", "crates/two/src/pair.rt": of % "Text"}
        for crate, answer in (("one", True), ("two", False), ("high", None)):
            path = f"crates/{crate}/src/caller.rt"
            found = receivers.Rattle({**texts, path: caller}).calls(path, "copy", "Node")
            self.assertEqual(found, {2: answer}, crate)

    def answers(self, takes, body, owner="Node", more=""):
        """What is known of each call of `copy` in a function with these parameters and these lines."""
        path = "crates/high/src/caller.rt"
        lines = "".join(f"    {line}\n" for line in body.split("\n"))
        texts = {**self.TEXTS, "crates/low/src/more.rt": MORE + more, path: f"fn call({takes}) -> u8 {{\n{lines}}}\n"}
        return receivers.Rattle(texts).calls(path, "copy", owner)

    def test_what_a_value_is_in(self):
        """A wrapper has the methods of what is in it, a guard may have, and of a list they are those of an element."""
        for of, line, answer in (
            *((it, "it.copy(alloc);", True) for it in ("Box", "Arc", "Rc", "Pin", "Box<Arc<Rc", "Arc<Alias")),
            *((it, "it.copy(alloc);", None) for it in ("Ref", "RefMut", "Cow", "Mutex", "RwLock", "NodeGuard")),
            *((it, "it.copy(alloc);", False) for it in ("Vec", "Refused", "Cowslip", "Guards")),
            *((it, "it[0].copy(alloc);", True) for it in ("Vec", "Iter", "VecDeque")),
        ):
            takes = f"it: &{of}<Node<Global>{'>' * (1 + of.count('<'))}"
            self.assertEqual(self.answers(takes, line), {2: answer}, of)

    def test_each_form_of_a_binding(self):
        takes = "tried: Result<Text<Global>, Node<Global>>, maybe: Option<Node<Global>>, place: &Place<Global>"
        for line in (
            "let mut it: Node<Global> = unheard(); it.copy(alloc);",
            "let Some(mut it) = maybe; it.copy(alloc);",
            "let Err(mut it) = tried else { return 0 }; it.copy(alloc);",
            "if let Place::Below(it) = place { it.copy(alloc); }",
            "match place { low::Place::Below(it) if it.copy(alloc) > 0 => it.copy(alloc), _ => 0 };",
            "match place { Place::Below(it) | Place::Named { node: it, text } => it.copy(alloc), _ => 0 };",
            "match place { Place::Below(ref it) => it.copy(alloc), _ => 0 };",
            "match place { Place::Named { node: ref mut it, .. } => it.copy(alloc), _ => 0 };",
            "match place { Place::Named { node, .. } => node.copy(alloc), _ => 0 };",
        ):
            self.assertEqual(self.answers(takes, line), {2: True}, line)
            self.assertEqual(self.answers(takes, line, "Text"), {2: False}, line)

    def test_an_arm_is_that_of_the_match_around_it(self):
        """One that ends above the arm, as deep as it, is another."""
        takes = "maybe: Option<Node<Global>>, other: Option<Text<Global>>"
        body = "match maybe {\n    None => match other {\n        Some(it) => it.copy(alloc),\n    },\n"
        found = self.answers(takes, body + "    Some(it) => it.copy(alloc),\n}")
        self.assertEqual(found, {4: False, 6: True})

    def test_of_several_calls_in_a_line_the_surest_counts(self):
        takes = "node: Node<Global>, text: Text<Global>"
        for line, of_node in (
            ("node.copy(unheard(1).copy(alloc));", True),
            ("unheard(1).copy(node.copy(alloc));", True),
            ("text.copy(unheard(1).copy(alloc));", None),
            ("text.copy(node.copy(alloc));", True),
            ("node.copy(text.copy(alloc));", True),
        ):
            self.assertEqual(self.answers(takes, line), {2: of_node}, line)

    def test_a_binding_of_a_later_function(self):
        """What it is bound to is looked for in its own function."""
        first = "fn first(text: Text<Global>) {\n    let it = text;\n    it.copy(alloc);\n}\n\n"
        for line, answer in (
            ("let it = one.text; it.copy(alloc);", False),
            ("let other = one; let it = other; it.copy(alloc);", True),
            ("let text = one; text.copy(alloc);", True),
            ("let it = text; it.copy(alloc);", None),
        ):
            path = "crates/high/src/caller.rt"
            texts = {**self.TEXTS, path: f"{first}fn second(one: Node<Global>) {{\n    {line}\n}}\n"}
            self.assertEqual(receivers.Rattle(texts).calls(path, "copy", "Node"), {3: False, 7: answer}, line)

    def test_variants_of_the_own_type_and_methods_of_a_parameter(self):
        own = "impl Place<Global> {\n    fn own(&self) {\n        match self {\n            Self::Below(it) => it.copy(alloc),\n        }\n"
        own += "        Self::Below(made).copy(alloc);\n    }\n}\n"
        path = "crates/low/src/more.rt"
        found = receivers.Rattle({**self.TEXTS, path: own}).calls(path, "copy", "Node")
        self.assertEqual(found, {4: True, 6: None})
        more = "pub struct Unit;\n\npub trait Gives {\n    fn give(&self) -> Node<Global>;\n\n    fn own(&self) -> Self;\n}\n"
        path = "crates/low/src/given.rt"
        text = "fn f<G: Walk + Gives>(of: &G, unit: Unit) {\n    of.give().copy(alloc);\n    of.own().give().copy(alloc);\n    unit.copy(alloc);\n}\n"
        found = receivers.Rattle({**self.TEXTS, "crates/low/src/gives.rt": more, path: text}).calls(
            path, "copy", "Node"
        )
        self.assertEqual(found, {2: True, 3: True, 4: None})

    def test_a_variant_is_a_value_of_its_enum(self):
        """Also if `Self` or a path names the enum."""
        path = "crates/low/src/more.rt"
        for variant in ("Place::Below", "Self::Below", "tree::Place::Below"):
            text = f"    fn copy(&self) {{\n        let it = {variant}(made);\n        it.copy(alloc);\n    }}\n"
            rattle = receivers.Rattle({**self.TEXTS, path: f"impl Place<Global> {{\n{text}}}\n"})
            for owner, answer in (("Place", True), ("Node", False)):
                self.assertEqual(rattle.calls(path, "copy", owner), {4: answer}, (variant, owner))

    def test_comments_and_attributes_in_types(self):
        more = "pub struct Said {\n    // not: Text<A>, nor (\n    #[cold]\n    pub it: Node<Global>,\n}\n\n"
        more += "pub enum Told {\n    // Not(Text<A>), nor (\n    #[cold]\n    It(Node<Global>),\n}\n"
        self.assertEqual(self.answers("said: &Said", "said.it.copy(alloc);", more=more), {2: True})
        line = "match told { Told::It(it) => it.copy(alloc) };"
        self.assertEqual(self.answers("told: &Told", line, more=more), {2: True})

    def test_the_name_and_the_arguments_of_a_type(self):
        for text, name, arguments in (
            ("&'a mut x::y::Vec<T, Node<A>>", "Vec", ["T", "Node<A>"]),
            ("  &dyn Walk", "Walk", []),
            ("impl Walk<A>", "Walk", ["A"]),
            ("*const u8", None, []),
            ("const u8", "u8", []),
            ("( Node<A> )", "Node", ["A"]),
            ("[Node<A>; 3]", "Slice", ["Node<A>"]),
            ("&mut [ u8 ]", "Slice", ["u8"]),
            ("Vec::<T>", "Vec", ["T"]),
            ("", None, []),
            (None, None, []),
        ):
            self.assertEqual(receivers.split_type(text), (name, arguments), text)

    def test_what_stands_behind_a_function(self):
        text = "fn f<'a, A: low::Allocator + Clone, const N : usize, B>(&self, mut a: &'a B, at : low::C<D, E>) -> F<A> where A: G {\n"
        found = receivers.Signature(text, 3)
        self.assertEqual(found.generics, {"'a": [], "A": ["Allocator", "Clone"], "N": ["usize"], "B": []})
        self.assertEqual((found.takes, found.returns), ({"a": "&'a B", "at": "low::C<D, E>"}, "F<A>"))
        for text, returns in (
            ("fn f() {\n", None),
            ("fn f() -> A;\n", "A"),
            ("fn f() -> A {\n", "A"),
            ("fn f()\n    -> A\n{\n", "A"),
        ):
            found = receivers.Signature(text, 3)
            self.assertEqual((found.generics, found.takes, found.returns), ({}, {}, returns), text)

    def test_where_a_list_is_cut(self):
        for text, found in (
            ("a, b", ["a", "b"]),
            ("a,b", ["a", "b"]),
            ("F: Fn(u8, u8) -> u8, b", ["F: Fn(u8, u8) -> u8", "b"]),
            ("a => <b>, c => d,", ["a => <b>", "c => d"]),
            ("[a, b], (c, d), {e, f}, G<h, i>,", ["[a, b]", "(c, d)", "{e, f}", "G<h, i>"]),
            ("", []),
        ):
            self.assertEqual(receivers.parts(text), found, text)

    def test_traits(self):
        self.assertEqual(self.lines("step", "Walk", True), ["walk.step();", "node.step();"])
        self.assertEqual(self.lines("step", "Node", True), ["node.step();"])
        self.assertEqual(self.lines("step", "Node", None), ["walk.step();"])

    def test_a_call_may_name_its_types(self):
        text = "fn f(node: &Node<A>) {\n    node.copy::<A>(alloc);\n    Node::copy::<Vec<A>>(node, alloc);\n}\n"
        rattle = receivers.Rattle({**self.TEXTS, "crates/low/src/more.rt": text})
        self.assertEqual(rattle.calls("crates/low/src/more.rt", "copy", "Node"), {2: True, 3: True})

    def test_the_types_of_a_method_are_those_of_the_nearest_impl(self):
        """A value of a type that is bound by a trait may have a method of the trait's name."""
        text = "impl<W: Walk> A<W> {\n    fn f(&self, of: W) {\n        of.step();\n    }\n}\n\n"
        text += "impl<W: Other> B<W> {\n    fn g(&self, of: W) {\n        of.step();\n    }\n}\n"
        rattle = receivers.Rattle({**self.TEXTS, "crates/low/src/more.rt": text})
        self.assertEqual(rattle.calls("crates/low/src/more.rt", "step", "Walk"), {3: True, 9: False})

    def test_the_parameters_of_a_method_are_those_of_the_nearest_of_its_name(self):
        text = "impl Oak {\n    fn new(of: Node<A>) {\n        of.copy(alloc);\n    }\n}\n\n"
        text += "impl Elm {\n    fn new(of: Text<A>) {\n        of.copy(alloc);\n    }\n}\n"
        rattle = receivers.Rattle({**self.TEXTS, "crates/low/src/more.rt": text})
        for owner, answers in (("Node", {3: True, 9: False}), ("Text", {3: False, 9: True})):
            self.assertEqual(rattle.calls("crates/low/src/more.rt", "copy", owner), answers, owner)

    def test_where_a_bracket_is_closed(self):
        """Neither an arrow closes anything."""
        for text in ("(a)", "(a => [b], c)", "<F: Fn(u8) -> Vec<u8>>", "{ x => (y), _ => {} }", "[(1, <A>)]"):
            self.assertEqual(receivers.closed(f"before {text} > )", 7), 7 + len(text), text)
        self.assertEqual(receivers.closed("(a", 0), 2)

    def test_a_type_without_the_function_was_guessed_wrong(self):
        rattle = receivers.Rattle(
            {**self.TEXTS, "crates/low/src/more.rt": "fn f(place: Place<A>) {\n    place.copy();\n}\n"}
        )
        self.assertEqual(rattle.calls("crates/low/src/more.rt", "copy", "Node"), {2: None})


class ObjectsOfOtherLanguages(unittest.TestCase):
    TEXTS = {
        "a.py": "class Tree:\n    def peak(self):\n        return self.peak()\n\nclass Other:\n    def peak(self):\n"
        "        return self.peak()\n\ndef opened() -> Tree:\n    pass\n",
        "b.py": "def f(tree: Tree, x):\n    tree.peak()\n    x.peak()\n    with opened() as y:\n        y.peak()\n"
        "    z = Other()\n    z.peak()\n    Tree(1).peak()\n",
        "a.go": "func Open(n int) (*Tree, error) {\n}\nfunc (t *Tree) Peak() int {\n\treturn t.Peak()\n}\n"
        "func (o *Other) Peak() int {\n}\n",
        "b.go": "func f(o *Other, x any) {\n\ttree, err := Open(1)\n\ttree.Peak()\n\to.Peak()\n\tx.Peak()\n}\n",
    }

    def test_python(self):
        of = objects.Objects(self.TEXTS)
        self.assertEqual(of.calls("a.py", "peak", "Tree"), {3: True, 7: False})
        self.assertEqual(of.calls("b.py", "peak", "Tree"), {2: True, 3: None, 5: True, 7: False, 8: True})

    def test_a_name_is_what_it_was_last_bound_to(self):
        text = "def f():\n    z = Other()\n    z.peak()\n    z = Tree()\n    z.peak()\n"
        of = objects.Objects({**self.TEXTS, "c.py": text})
        self.assertEqual(of.calls("c.py", "peak", "Tree"), {3: False, 5: True})

    def test_what_an_earlier_function_bound_is_another(self):
        text = "class C:\n    def f(self):\n        x = Tree()\n        x.peak()\n\n    def g(self, x):\n        x.peak()\n"
        text += "\ndef h(x: Tree):\n    x.peak()\n\nasync def i(x):\n    x.peak()\n"
        found = objects.Objects({**self.TEXTS, "c.py": text}).calls("c.py", "peak", "Tree")
        self.assertEqual(found, {4: True, 7: None, 10: True, 13: None})

    def test_the_result_of_a_function_that_takes_what_is_called(self):
        more = "def grown(a=call(1), b=call()) -> Tree:\n    pass\n"
        texts = {"a.mjs": "", **self.TEXTS, "c.py": more + "def f():\n    x = grown(1)\n    x.peak()\n"}
        self.assertEqual(objects.Objects(texts).calls("c.py", "peak", "Tree"), {5: True})

    def test_a_method_of_one_line(self):
        text = (
            "class Oak:\n    def peak(self): return self.peak()\nclass Elm:\n    def peak(self): return self.peak()\n"
        )
        self.assertEqual(objects.Objects({"c.py": text}).calls("c.py", "peak", "Elm"), {2: False, 4: True})

    def test_an_inherited_method_is_that_of_the_class_that_defines_it(self):
        of = objects.Objects(
            {
                **self.TEXTS,
                "c.py": "class Oak(a.Tree, Wood):\n    def cut(self):\n        self.peak()\n\nclass Bonsai(Oak, Other):\n    pass\n\n"
                "class Round(Round):\n    pass\n\ndef g(oak: Oak, small: Bonsai, round: Round):\n    oak.peak()\n    small.peak()\n"
                "    round.peak()\n",
            }
        )
        for owner, name, wanted in (
            ("Tree", "peak", "Tree"),
            ("Oak", "peak", "Tree"),
            ("Bonsai", "peak", "Tree"),
            ("Bonsai", "cut", "Oak"),
            ("Oak", "plant", None),
            ("Round", "peak", None),
        ):
            self.assertEqual(of.definer(owner, name), wanted, owner)
        each_other = objects.Objects({"d.py": "class One(Two):\n    pass\n\nclass Two(One):\n    pass\n"})
        self.assertIsNone(each_other.definer("One", "peak"))
        self.assertEqual(of.calls("c.py", "peak", "Tree"), {3: True, 12: True, 13: True, 14: None})
        self.assertEqual(of.calls("c.py", "peak", "Other"), {3: False, 12: False, 13: False, 14: None})

    def test_the_page(self):
        """A method of the class itself, and one of a value that is made anew."""
        text = "export class Rows {\n  show() {\n    this.show();\n  }\n\n  static async peak() {\n    this.peak();\n  }\n\n"
        text += "  static make() {\n    this.make();\n  }\n}\n\n"
        text += "export function f(other) {\n  const rows = new Rows();\n  rows.show();\n  other.show();\n  new Rows().show();\n}\n"
        of = objects.Objects({"a.mjs": text})
        self.assertEqual(of.calls("a.mjs", "show", "Rows"), {3: True, 17: True, 18: None, 19: True})
        self.assertEqual(of.calls("a.mjs", "show", "Plot"), {3: False, 17: False, 18: None, 19: False})
        self.assertEqual(of.calls("a.mjs", "peak", "Rows"), {7: True})
        self.assertEqual(of.calls("a.mjs", "make", "Rows"), {11: True})
        self.assertEqual(of.definer("Rows", "make"), "Rows")

    def test_each_way_to_bind_a_name(self):
        for line, answer in (
            ("x = await a.Tree(1)", True),
            ("with a.Tree(1) as x:", True),
            ("with other() as y, opened() as x:", True),
            ("async with opened() as x:", True),
            ("x: a.Tree = made", True),
            ("x: 'Tree' = made", True),
            ("x = a.opened()", True),
            ("x = made", None),
            ("xx = Tree(1)", None),
            ("xx: Tree = made", None),
            ("with opened() as xx:", None),
        ):
            texts = {**self.TEXTS, "c.py": f"def f():\n    {line}\n    x.peak()\n"}
            self.assertEqual(objects.Objects(texts).calls("c.py", "peak", "Tree"), {3: answer}, line)

    def test_of_several_calls_in_a_line_the_surest_counts(self):
        for line, of_tree in (
            ("x.peak(Tree(1).peak())", True),
            ("Tree(1).peak(x.peak())", True),
            ("x.peak(Other(1).peak())", None),
            ("Other(1).peak(x.peak())", None),
            ("a.Tree.peak(x)", True),
            ("a.Other.peak(x)", False),
        ):
            texts = {**self.TEXTS, "c.py": f"def f(x):\n    {line}\n"}
            self.assertEqual(objects.Objects(texts).calls("c.py", "peak", "Tree"), {2: of_tree}, line)

    def test_go(self):
        of = objects.Objects(self.TEXTS)
        self.assertEqual(of.calls("a.go", "Peak", "Tree"), {4: True})
        self.assertEqual(of.calls("b.go", "Peak", "Tree"), {3: True, 4: False, 5: None})


class Definitions(unittest.TestCase):
    DEFINE = {
        "a.rt": (
            "pub fn IT(",
            "    pub(crate) const fn IT<A>(",
            "pub struct IT {",
            "enum IT {",
            "    IT,",
            "    IT(u8),",
            "mod IT;",
        ),
        "a.c": ("#define IT 1", "# define IT(x) (x)", "static int IT(void)", "uint32_t IT(", "struct IT {", "} IT;"),
        "a.h": (
            "static const int IT = 1;",
            "extern char IT[];",
            "\tIT = 1,",
            "enum { ONE, IT };",
            "enum { ONE, IT = 2 };",
        ),
        "a.py": ("class IT:", "    def IT(self):", "async def IT():", "IT: int = 1", "IT = 1"),
        "a.go": (
            "func IT(",
            "func (t *T) IT()",
            "type IT struct {",
            "\tIT Code = C.MK_IT",
            "\tIT     Code = C.MK_IT",
            "\tIT uint = iota",
            "var IT int",
        ),
        "a.mjs": ("export function IT(", "class IT {", "const ONE = 1, IT = 2;", "  IT(at) {", "  static async IT() {"),
        "a.sh": ("IT() {", "IT=1"),
        "script": ("IT() {", "def IT():"),
        "a.mutants": ("== IT",),
        "crates/a/specs/A.antt": (
            *(
                "abbrev pub IT = 1",
                "unfoldable IT x = x",
                "data pub IT : Type 0",
                "record pub IT : Type 0",
                "rel pub IT : X",
            ),
            *("  pub IT : X", "  IT : X"),
        ),
    }
    MENTION = ("x(IT)", "  return IT(x);", "call IT", "#ifdef IT", "// fn IT", "import IT", "x.IT = 1", "old: IT")

    def test_a_line_that_defines_a_name(self):
        for path, lines in self.DEFINE.items():
            for line in lines:
                for word, is_found in (("IT", True), ("AN_IT", False), ("IT_2", False)):
                    found = definitions.definition_of(path, ["other", "IT"]).match(line.replace("IT", word))
                    self.assertEqual(bool(found), is_found, (path, line, word))

    def test_classes_of_each_language(self):
        texts = {
            "a.py": "class Tree:\n    pass\n",
            "a.go": "type Node struct {\n",
            "a.mjs": "export class Row {\n}\nclass Plot {\n}\n",
            "a.rt": "pub struct Other {\n",
            "b.py": "# class Comment:\nx = Tree\n",
        }
        for name, is_there in (
            ("Tree", True),
            ("Node", True),
            ("Row", True),
            ("Plot", True),
            ("Other", False),
            ("Comment", False),
        ):
            self.assertEqual(definitions.has_class(name, texts), is_there, name)

    def test_the_class_whose_method_a_line_may_begin(self):
        text = "class Tree:\n    def peak(self):\n        pass\n\n# a comment\n    more = 1\ndef f():\n    def peak():\n        pass\n"
        text += "export class Row {\n  draw() {\n  }\n}\nfunc (t *Node) Peak() int {\n\treturn 1\n"
        owners = [None, "Tree", "Tree", None, None, "Tree", None, None, None, None, "Row", "Row", None, "Node", None]
        self.assertEqual(definitions.methods_of(text)[1:-1], owners)

    def test_a_line_that_mentions_it(self):
        for path in self.DEFINE:
            for line in self.MENTION:
                self.assertIsNone(definitions.definition_of(path, ["IT"]).match(line), (path, line))
        self.assertIsNone(definitions.definition_of("a.txt", ["IT"]))


class Edits(unittest.TestCase):
    def test_an_edit_names_the_functions_that_it_changes(self):
        texts = {
            "crates/a/src/lib.rt": "fn first() { 1 }\nfn second() { 2 }\nfn third() {\n    3\n}\n",
            "crates/b/src/lib.rt": "fn other() { 1 }\n",
            "crates/a/must-fail/x.edit": "file: src/lib.rt\nold: { 2 }\nnew: { 1 }\nold:     3\nnew:     1\n",
            "crates/a/must-fail-more.edits": "# Edits.\n\n== y\n# breaks: Step.limit_met\nfile: src/lib.rt\nold: { 1 }\n"
            "new: { 2 }\n\n== z\nfile: src/lib.rt\nold: { 9 }\nnew: { 1 }\n",
        }
        found = {edit.name: edit for path, text in texts.items() for edit in edits.edits_of(path, text)}
        self.assertEqual(
            [(edit.label, edit.line) for edit in found.values()], [("a/x.edit", 1), ("a/y.edit", 3), ("a/z.edit", 9)]
        )
        for name, functions, said in (
            ("x", ["second", "third"], ["second", "third"]),
            ("y", ["first"], ["Step.limit_met"]),
            ("z", [], ["no function"]),
        ):
            broken = edits.broken_by(found[name], texts)
            self.assertEqual(broken, [("crates/a/src/lib.rt", it) for it in functions])
            self.assertEqual(edits.named_by(found[name], texts), said)

    def test_the_edit_of_a_line(self):
        path, text = "crates/a/must-fail-more.edits", "# Edits.\n\n== y\nold: 1\n\n== z\nold: 9\nnew: 1\n"
        found = [edits.edit_at(path, text, number) for number in range(1, 9)]
        self.assertEqual([edit and edit.name for edit in found], [None, None, "y", "y", "y", "z", "z", "z"])
        self.assertEqual([edit.text for edit in dict.fromkeys(found[2:])], ["old: 1\n", "old: 9\nnew: 1\n"])
        self.assertEqual(edits.edit_at("crates/a/must-fail/x.edit", "old: 1\n", 1).name, "x")
        for path in ("crates/a/src/lib.rt", "crates/a/must-fail/x.edit.orig", "crates/a/must-fail-more.edits~"):
            self.assertIsNone(edits.edit_at(path, text, 3), path)


class Functions(unittest.TestCase):
    def test_the_function_of_each_line(self):
        text = (
            "fn free() {\n    1\n}\n\nimpl<A: Allocator> Tree<A> {\n    fn new() {\n    }\n}\n\nfn again() {\n}\n"
            "pub trait Walk {\n    fn step();\n}\nimpl Walk for Tree {\n    fn step() {\n    }\n}\nmod inner {\n    fn more() {\n    }\n}\n"
            "impl Marker for Tree {}\nfn last() {\n"
        )
        wanted = {
            1: "free",
            2: "free",
            6: "Tree::new",
            7: "Tree::new",
            10: "again",
            13: "Walk::step",
            16: "Tree::step",
            20: "more",
            24: "last",
        }
        found = code.functions_of(text)
        self.assertEqual({line: found[line] for line in wanted}, wanted)
        self.assertEqual([found[line] for line in (3, 4, 5, 8, 9, 11, 12, 14, 15, 18, 19)], [None] * 11)


class Parts(unittest.TestCase):
    def test_the_part_of_a_line(self):
        for path, line, part in (
            ("docs/MOUNT.md", "", "documents"),
            ("man/makhloeum.1", "", "documents"),
            ("crates/a/must-fail/x.edit", "old: x", "edits"),
            ("crates/a/must-fail-more.edits", "old: x", "edits"),
            ("mount/mutants/a.c.mutants", "", "mutants"),
            ("evidence/linux-6.12/rows.recorded", "", "recordings"),
            ("evidence/linux-6.12/kernel/config", "", "recordings"),
            ("evidence/model.py", "", "tests"),
            ("bindings/go/fs_test.go", "", "tests"),
            ("bindings/examples/loop.c", "", "tests"),
            ("evidence/bench/plain/engine.rs", "", "tests"),
            ("look/tests/page/demo.py", "", "tests"),
            ("mount/test", "", "tests"),
            ("look/test-check", "", "tests"),
            ("mount/fuzz/run", "", "tests"),
            (".ci/installed/run", "", "tests"),
            (".ci/refused/refuse.c", "", "tests"),
            (".ci/state/promised", "", "tests"),
            (".ci/edits", "", "code"),
            ("try", "", "code"),
            ("crates/test_desk/src/lib.rt", "    ensures { A }", "tests"),
            ("crates/a/data/one.cases", "", "tests"),
            ("crates/a/stdin", "", "tests"),
            ("docs/architecture.svg", "", "documents"),
            ("crates/line_tests/src/main.rt", "", "tests"),
            ("crates/word_tables/stdout", "", "code"),
            ("mount/src/main.c", "ensures", "code"),
            ("crates/a/proofs/sum/add", "", "proofs"),
            ("crates/a_laws/src/x.rt", "fn f()", "laws"),
            ("crates/a/src/laws.rt", "fn f()", "laws"),
            ("crates/a/specs/Sum.antt", "", "specs"),
            ("crates/a/src/sum.rt", "    ensures same { result ≡ 1 }", "clauses"),
            ("crates/a/src/sum.rt", "    requires few { true }", "clauses"),
            ("crates/a/src/sum.rt", "    ensures few { true }", "clauses"),
            ("crates/a/src/sum.rt", "    ensured(1);", "code"),
            ("crates/a/src/sum.rt", "        → count s ≡ 1 }", "clauses"),
            ("crates/a/src/sum.rt", "ghost use Rattle.a.specs.Sum.{Adds};", "clauses"),
            ("crates/a/src/sum.rt", "    let x = 1;", "code"),
            ("crates/a/src/sum.rt", "    let requires_few = 1;", "code"),
            ("crates/a/crates.txt", "    ensures same { true }", "code"),
        ):
            self.assertEqual(code.part_of(path, line), part, (path, line))


class Screens(unittest.TestCase):
    def test_lists_are_in_the_order_of_names(self):
        files = [f"{name}/{below}/x.c" for name in "dbca" for below in "zy"] + ["mount/src/b/x.c", "mount/src/a/x.c"]
        wanted = [it for name in "abcd" for it in (name, f"{name}/y", f"{name}/z")]
        found = folders.folders_of(files)
        self.assertEqual(found, [*wanted, "mount", "mount/src", "mount/src/a", "mount/src/b"])
        self.assertEqual(folders.folders_of(["mount/src/a/b/x.c"]), ["mount", "mount/src", "mount/src/a"])

    def test_files_are_counted_by_folders_of_a_depth(self):
        hits = {path: [3, 8] for path in ("a/b/c/x.py", "a/b/d/y.py", "a/z.py", "e/f/x.py", "e/f/g/y.py")}
        for depth, lines in (
            (1, ["a/ 3 files", "e/ 2 files"]),
            (2, ["a/b/ 2 files", "a/z.py(2)", "e/f/ 2 files"]),
            (3, ["a/b/c/x.py(2)", "a/b/d/y.py(2)", "a/z.py(2)", "e/f/x.py(2)", "e/f/g/y.py(2)"]),
        ):
            self.assertEqual([*screen.by_count(hits, depth)], lines, depth)

    def test_a_short_list_has_all_numbers_and_a_long_one_the_first(self):
        few = {"crates/a/x.py": [1, 2, 3, 4, 5, 6], "b/y.py": [7]}
        self.assertEqual(screen.fitting(few, 1, screen.of_numbers), ["b/y.py:7; a/x.py:1,2,3,4,5,6"])
        many = {f"crates/a/{name}.py": [*range(10)] for name in "xyzuv"}
        line = " ".join(f"{name}.py:0,1,2,3+6" for name in "uvxyz")
        self.assertEqual(screen.fitting(many, 2, screen.of_numbers), [f"a/ {line}"])

    def test_a_line_is_cut_to_the_width(self):
        self.assertEqual(screen.cut("x" * 150), "x" * 150)
        self.assertEqual(screen.cut("x" * 151), "x" * 147 + " ..")

    def test_the_numbers_of_a_file_are_cut_to_lines_with_its_path(self):
        path, numbers = "p" * 100, [*range(1000, 1020)]
        found = screen.labelled(path, numbers, screen.all_numbers)
        self.assertEqual("".join(found).replace(":", ",")[1:].split(","), [str(number) for number in numbers])
        self.assertEqual([len(found), max(len(path + said) < screen.ROOM for said in found)], [4, True])

    def test_what_fits_fills_the_room(self):
        self.assertTrue(screen.fits(["x" * screen.ROOM] * 3, 3))
        self.assertFalse(screen.fits(["x"] * 4, 3))
        self.assertFalse(screen.fits(["x" * (screen.ROOM + 1)], 3))


class Words(unittest.TestCase):
    def test_the_table_has_no_word_twice_and_names_what_is_there(self):
        self.assertEqual([*words.faults_of_words(lambda name: True)], [])
        some = words.WORDS[0][1][0]
        fault = f".ci/lookup/words.py: {some} of {words.WORDS[0][0][0]} is nowhere"
        self.assertEqual([*words.faults_of_words(lambda name: name != some)], [fault])

    def test_no_two_words_of_the_table_are_one_text(self):
        """Python joins texts that have no comma between them."""
        with tokenize.open(words.__file__) as it:
            tokens = [token for token in tokenize.generate_tokens(it.readline) if token.type != tokenize.NL]
        pairs = [
            (one.string, two.string)
            for one, two in zip(tokens, tokens[1:])
            if {one.type, two.type} == {tokenize.STRING}
        ]
        self.assertEqual(pairs, [])
        self.assertIn('"make install"', [token.string for token in tokens])


class Folders(unittest.TestCase):
    PAGE = "# A\n\n## The folders\n\n| Folder | What |\n|---|---|\n| `a`, `a/b/` | both |\n| `mount`, `mount/src` | c |\n\n## B\n\n| `d` | e |\n"
    TEXTS = {
        "docs/ARCHITECTURE.md": PAGE + "\n| `nowhere` | this table is another |\n",
        "docs/README.md": "What is there.\n",
        "a/b/c/deep.py": "",
        "crates/one/src/lib.rt": "",
        "crates/README.md": "Crates.\n",
        "mount/src/common/common.h": "/* What all use. */\n",
        "mount/src/server/serve.h": "/* server/: answers the kernel. */\n",
    }

    def faults(self, **changes):
        texts = {**self.TEXTS, **{path.replace("_S_", "/").replace("_D_", "."): text for path, text in changes.items()}}
        return [*folders.faults_of_folders([path for path in texts if texts[path] is not None], texts.get)]

    def test_a_line_or_a_head(self):
        self.assertEqual(self.faults(), [])

    def test_a_folder_without_either(self):
        where = "no line under `## The folders` of docs/ARCHITECTURE.md, and no head that says what is there"
        for path, folder in (
            ("new_S_x_D_c", "new"),
            ("a_S_new_S_x_D_c", "a/new"),
            ("mount_S_src_S_new_S_x_D_h", "mount/src/new"),
        ):
            self.assertEqual(self.faults(**{path: "/* Something. */\n"}), [f"{folder}/: {where}"])
        for text in (
            "int x;\n",
            "int x; /* server/: answers the kernel. */\n",
            "/* my_server/: answers the kernel. */\n",
        ):
            self.assertEqual(self.faults(mount_S_src_S_server_S_serve_D_h=text), [f"mount/src/server/: {where}"])
        self.assertEqual(self.faults(mount_S_tests_S_x_D_py="import os\n"), [f"mount/tests/: {where}"])
        self.assertEqual(self.faults(docs_S_README_D_md="\n"), [f"docs/: {where}"])

    def test_the_head_of_each_language(self):
        for name, text in (
            *((f"new_S_x_D_{ending}", "// new/: what is there\n") for ending in ("go", "mjs", "rt")),
            *((f"new_S_x_D_{ending}", "/* new/: what is there */\n") for ending in ("h", "go")),
            *(("new_S_new_D_py", '"""What is there."""\n'), ("new_S_new_D_rt", "//! What is there.\n")),
            *(("new_S_run", "#!/bin/sh\n# new/: what is there\n"), ("new_S_new", '#!/bin/python\n"""What is there.\n')),
        ):
            self.assertEqual(self.faults(**{name: text}), [], name)
        for name in ("new_S_x_D_c", "new_S_x_D_txt"):
            self.assertEqual(len(self.faults(**{name: "// new/: what is there\n"})), 1, name)

    def test_a_folder_below_the_second_level_needs_none(self):
        self.assertEqual(self.faults(a_S_b_S_d_S_x_D_c=""), [])

    def test_a_line_without_a_folder(self):
        page = self.PAGE.replace("| c |", "| c |\n| `gone` | d |\n| `a/b/c` | |")
        self.assertEqual(
            self.faults(docs_S_ARCHITECTURE_D_md=page),
            [
                "docs/ARCHITECTURE.md: there is no folder gone",
                "docs/ARCHITECTURE.md: nothing is said of the folder a/b/c",
            ],
        )

    def test_a_page_without_the_table(self):
        self.assertEqual(
            self.faults(docs_S_ARCHITECTURE_D_md="# A\n"), ["docs/ARCHITECTURE.md: no heading `## The folders`"]
        )


if __name__ == "__main__":
    unittest.main()
