#!/usr/bin/env python3
"""A test that docs/PROOFS.md names each law.

Usage: tools/tests/laws_test.py

A law is a public function of a crate that takes nothing, has an `ensures`, and whose body is empty or calls laws alone: it
computes nothing, so what it ensures is proved of the definitions. Where the page does not name one, this says which, and of
which crate. Nothing is proved here.
"""
import os
import re
import unittest

HERE = os.path.dirname(os.path.dirname(os.path.dirname(os.path.abspath(__file__))))
PAGE = os.path.join(HERE, 'docs', 'PROOFS.md')
# its name, its clauses, and its calls
LAW = re.compile(r'^pub fn (\w+)\(\)\n((?: +[^\n]*\n)*?)\{(\}|\n(?: +[\w:]+\(\);\n)+\}|\n\})', re.MULTILINE)


def laws_in(text):
    """The names of the laws in the text of a module, with what each calls."""
    return {found[1]: re.findall(r'(\w+)\(\);', found[3]) for found in LAW.finditer(text)
            if re.search(r'^ +ensures\b', found[2], re.MULTILINE)}


def laws():
    """The laws of all crates: name -> the crates that have one of this name. What calls something else is none."""
    found = []
    for folder, folders, names in os.walk(os.path.join(HERE, 'crates')):
        folders[:] = sorted(it for it in folders if it not in ('out', 'specs', 'proofs'))
        for name in sorted(names):
            if name.endswith('.rt'):
                with open(os.path.join(folder, name), encoding='utf-8') as file:
                    crate = os.path.relpath(folder, os.path.join(HERE, 'crates')).split(os.sep)[0]
                    found += [(law, crate, calls) for law, calls in laws_in(file.read()).items()]
    named = {law for law, _, _ in found}
    kept = {}
    for law, crate, calls in found:
        if named.issuperset(calls):
            kept.setdefault(law, []).append(crate)
    return kept


class Laws(unittest.TestCase):
    def test_a_law_is_found_by_its_form(self):
        text = ('/// A law.\npub fn runs_join()\n    ensures { RunsJoin }\n{}\n\n'
                'pub fn both_join()\n    ensures one { RunsJoin }\n    ensures other { Joins }\n{\n    runs_join();\n    tags::sets_join();\n}\n\n'
                'pub fn nothing_said()\n{}\n\n'
                'pub fn twelve()\n    ensures { result ≡ 12 }\n{\n    12\n}\n\n'
                'pub fn of(x: u64)\n    ensures { Fits x }\n{}\n\nfn inner()\n    ensures { Fits 1 }\n{}\n')
        self.assertEqual(laws_in(text), {'runs_join': [], 'both_join': ['runs_join', 'sets_join']})

    def test_there_are_laws(self):
        found = laws()
        for law in ('runs_are_isolated', 'runs_mean_what_the_source_means', 'sources_run_as_meant'):
            self.assertIn(law, found)

    def test_the_page_names_each(self):
        with open(PAGE, encoding='utf-8') as file:
            words = set(re.findall(r'\w+', file.read()))
        missing = [f'{law} ({", ".join(crates)})' for law, crates in laws().items() if law not in words]
        self.assertFalse(missing, f'docs/PROOFS.md does not name {", ".join(missing)}')


if __name__ == '__main__':
    unittest.main()
