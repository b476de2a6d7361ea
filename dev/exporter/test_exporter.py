"""Tests of the exporter and of the comparison, beside the check `export`, which exports and compares all sources: how
clauses look in an export, which forms are refused, and that a change of one token is found. The check `unit-tests` runs
them."""

from __future__ import annotations

import os
import random
import tempfile
import unittest
from collections.abc import Iterator, Sequence
from pathlib import Path

from common.blocks import blocks
from . import comparing, crates, requirements, tokens, workspace
from .rewriting import Role, exported
from .scanner import words_of
from .tokens import Trouble

REPOSITORY = Path(__file__).resolve().parent.parent.parent
CHANGES, SEED = 30, 20

FORMS = blocks("forms.txt", __file__)
SOURCE = FORMS["source"]
# Of the parameters of tests of requirements
TYPES = {"s": "& [ u8 ]", "n": "u32", "m": "usize", "b": "u8", "f": "impl Fn ( u8 )"}


def lines_of(title: str) -> Iterator[list[str]]:
    """The parts of each line of a block."""
    for line in FORMS[title].splitlines():
        yield [part.strip(" ").replace("\\n", "\n") for part in f"{line} ".split(" =>")]


def difference(source: str, export: str, role: Role = Role()) -> str | None:
    return comparing.difference(source, export, role, comparing.Report())


class Exports(unittest.TestCase):
    def test_each_form_is_exported_as_it_should_be(self) -> None:
        for title, text in FORMS.items():
            if title.startswith("exports: "):
                source, _, due = text.partition("=>\n")
                self.assertEqual(exported(source), due or source, title)
                self.assertIsNone(difference(source, exported(source)), title)
                self.assertIsNotNone(difference(source, "fn more() {}\n"), title)

    def test_other_forms_are_refused(self) -> None:
        sources = [text for title, text in FORMS.items() if title.startswith("refuses: ")]
        for source in [*sources, *FORMS["refused parts"].splitlines()]:
            with self.assertRaises((Trouble, ValueError), msg=source):
                exported(source)

    def test_tests_of_requirements(self) -> None:
        for clause, due in lines_of("tests"):
            tests = requirements.conditions_of(f"requires {{ {clause} }}", TYPES, False)
            self.assertEqual("; ".join(tests), due, clause)


class Differences(unittest.TestCase):
    def test_words_of_each_kind(self) -> None:
        words = words_of("a1 'b 'c' '\\'' \"d \\\" e\" br#\"f\"#\n // g\n"
                         "1.5_u8 0..2 requires* h { \"}\" { i' } } ghost j: { k }, ghost m: { n } = { o }; l", True)
        self.assertEqual([word.text for word in words],
                         ["a1", "'b", "'c'", "'\\''", '"d \\" e"', 'br#"f"#', "// g", "1.5_u8", "0", ".", ".", "2",
                          "requires* h { \"}\" { i' } }", "ghost j: { k },", "ghost m: { n } = { o };", "l"])
        self.assertEqual([word.line for word in words][5:8], [1, 2, 3])
        for text in ('"a', "requires { a", "requires a b { c }", "ghost a", "/* a"):
            self.assertRaises(Trouble, words_of, text, True)

    def test_an_export_is_accepted_and_no_change_of_it(self) -> None:
        role = Role(root=True)
        export = exported(SOURCE, role)
        self.assertIsNone(difference(SOURCE, export, role))
        for old, new, *said in lines_of("changes"):
            self.assertEqual(export.count(old), 1, old)
            self.assertIn("".join(said), difference(SOURCE, export.replace(old, new), role) or self.fail(new))
        start, end = export.split("    assert!(f < self.count);")
        for other in (export + "fn more() {}\n", start + "    assert!(f < self.count)" + end.replace(";", "")):
            self.assertIsNotNone(difference(SOURCE, other, role))

    def test_changes_of_other_forms_are_found(self) -> None:
        """Another drop by parts, and a test of a part of a choice or of a conclusion, which is no requirement."""
        for title, old, new in (("a drop by parts", "let (a, b)", "let (b, a)"),
                                ("a drop by parts", "&mut self", "&self"), ("a drop by parts", "&self.b", "&self.a"),
                                ("choices and conclusions", "    g()", "    debug_assert!(n < 3);\n    g()")):
            source = FORMS["exports: " + title].partition("=>\n")[0]
            self.assertIsNotNone(difference(source, exported(source).replace(old, new)), new)
        model = FORMS["refuses: a model with code"]
        self.assertIsNone(difference(model, model))

    def test_a_changed_token_of_a_source_of_the_repository(self) -> None:
        """One token of an export is left out, written twice, or replaced by another of the same file."""
        chance = random.Random(SEED)
        sources = [(crate.role(path), path) for crate in crates.crates_of(REPOSITORY).values()
                   for path in crate.sources()]
        for _ in range(CHANGES):
            role, path = chance.choice(sources)
            source = path.read_text(encoding="utf-8")
            text = exported(source, role)
            found = [token for token in tokens.tokens(text) if token.kind != "comment"]
            token = chance.choice(found)
            other = chance.choice([other.text for other in found if other.text != token.text])
            new = chance.choice(["", f"{token.text} {token.text}", other])
            changed = f"{text[:token.start]} {new} {text[token.end:]}"
            self.assertIsNotNone(difference(source, changed, role), f"{path}: {token} became {new!r}")


class Folders(unittest.TestCase):
    """A small repository, and its export."""

    def setUp(self) -> None:
        place = tempfile.TemporaryDirectory()
        self.addCleanup(place.cleanup)
        self.repository, self.to = Path(place.name) / "from", Path(place.name) / "to"
        self.write("crates.txt", "# A remark.\nlow: itoa\nhigh may_wait=1: low\nother:\n")
        self.write("LICENSE", "The license.\n")
        for name in ("low", "high", "other"):
            self.write(f"crates/{name}/src/{'main' if name == 'high' else 'lib'}.rt", "fn main() {}\n")

    def write(self, name: str, text: str) -> None:
        path = self.repository / name
        path.parent.mkdir(parents=True, exist_ok=True)
        path.write_text(text, encoding="utf-8")

    def files(self, only: Sequence[str] = ()) -> dict[str, str]:
        found = crates.chosen(crates.crates_of(self.repository), list(only))
        return workspace.files_of(found, self.repository, None)

    def differences(self) -> list[str]:
        return [text.rsplit("/", 1)[-1] for text in comparing.compared(self.repository, self.to).differences]

    def test_a_crate_comes_with_those_that_it_stands_on_and_with_the_license(self) -> None:
        files = self.files(["high"])
        self.assertIn('low = { version = "0.1.0", path = "../low" }', files["crates/high/Cargo.toml"])
        self.assertIn('itoa = { version = "0.1.0", path = "../../shims/itoa" }', files["crates/low/Cargo.toml"])
        self.assertEqual((files["crates/low/LICENSE"], "crates/other/Cargo.toml" in files), ("The license.\n", False))

    def test_each_name_leads_to_its_definition(self) -> None:
        """In a clause, from one definition to the next, to a trait's ghost item, to the kit and to a document."""
        self.write("crates/low/src/lib.rt", "/// A trait.\npub trait Held {\n    /// What it holds.\n"
                   "    ghost held: { Self → ℕ };\n}\n")
        self.write("crates/other/src/lib.rt", "ghost use Rattle.other.specs.A.{Is, has as Has};\n"
                   "ghost use Rattle.other.specs.A as A;\nghost use Rattle.std.specs.Prelude.{length};\n\n"
                   "/// F, docs/M.md, \"The rest\". `Is` says it.\npub fn f<P: Held>(has: P)\n"
                   "    requires Is { Is Has x.Is (A.has (λ q. Is)) (P.held y) (length has) }\n{\n}\n")
        self.write("crates/other/specs/A.antt", "-- All.\nuse Rattle.std.specs.Prelude.{ℕ}\n\n-- a number\n"
                   "abbrev pub has : ℕ\n\n-- what it is\npub record Is : Type 0 where\n  pub more : has\n")
        self.write("docs/M.md", "# M\n\n[M](M.md#the-rest) and [x](../x.py)\n\n    code\n\n## The rest\n")
        self.write("crates.txt", "low:\nother: low\n")
        files = self.files()
        shown = files["crates/other/src/lib.rs"]
        for due in ("[Is] [Has] x.Is ([A.has] (λ q. [Is])) ([P.held] y) ([length] has)",
                    "`Is`](crate::specs::A#def.Is) says", "[Is]: crate::specs::A#def.Is\n",
                    "[Has]: crate::specs::A#def.has\n",
                    "[P.held]: low::Held#ghost.held\n", "[length]: rattle_std::specs#def.length\n",
                    "[docs/M.md](rattle_std::docs::M#the-rest), \"The rest\""):
            self.assertIn(due, shown)
        page = files["crates/other/specs/A.md"]
        self.assertIn("All.\n\n## has\n\n<a id=\"def.has\"></a>\n\nA number.\n\n<code>abbrev pub has : [ℕ](", page)
        self.assertIn("&nbsp;&nbsp;pub more : [has](crate::specs::A#def.has)</code>", page)
        self.assertIn('- <a id="ghost.held"></a><code>held: Self → ℕ</code>\n///   <br>What it holds.',
                      files["crates/low/src/lib.rs"])
        self.assertEqual(files["shims/rattle_std/docs/M.md"],
                         "# M\n\n[M](crate::docs::M#the-rest) and x\n\n```text\ncode\n```\n\n## The rest\n")
        workspace.write(self.to, files)
        self.assertEqual(self.differences(), [])
        (self.to / "crates/other/src/specs.rs").write_text("pub fn more() {}\n")
        self.assertEqual(self.differences(), ["specs.rs is of no source"])

    def test_a_crate_that_is_unknown_or_has_no_shim_is_refused(self) -> None:
        self.assertRaises(Trouble, self.files, ["lower"])
        self.write("crates.txt", "low: serde\n")
        self.assertRaises(Trouble, self.files)

    def test_what_did_not_change_is_not_written_and_what_is_gone_goes(self) -> None:
        workspace.write(self.to, self.files())
        kept, gone = self.to / "crates/low/src/lib.rs", self.to / "crates/other/src/lib.rs"
        os.utime(kept, (1000, 1000))
        workspace.write(self.to, self.files(["high"]))
        self.assertEqual((kept.stat().st_mtime, gone.exists()), (1000, False))

    def test_a_folder_of_something_else_is_left_alone(self) -> None:
        self.to.mkdir()
        (self.to / "Cargo.toml").write_text("[package]\n")
        self.assertRaises(Trouble, workspace.write, self.to, self.files())
        self.assertEqual([path.name for path in self.to.iterdir()], ["Cargo.toml"])

    def test_a_file_too_few_and_too_many(self) -> None:
        self.assertEqual(len(self.differences()), 1)
        workspace.write(self.to, self.files())
        self.assertEqual(self.differences(), [])
        os.rename(self.to / "crates/low/src/lib.rs", self.to / "crates/low/src/c.rs")
        self.assertEqual(self.differences(), ["lib.rs is missing", "c.rs is of no source"])
