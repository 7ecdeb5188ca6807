#!/usr/bin/env python3
"""Builds what docs/MEASURED.md compares lam with, in plain Rust by rustc -O3: `format` and `check` from lam's own crates without
contracts, or a machine of another design.

Usage: tools/plain.py OUT             then `OUT format FILE` and `OUT check FILE` print what `lam` prints, for a program without faults
       tools/plain.py --run OUT       builds tools/plain_run.rs, whose head says how it is called

`format` and `check` are the same code over the standard library of Rust, from the lexer to the compiler. The clauses,
proofs and models are dropped, `Result`s for want of memory stay, and std's own calls take the allocator.
Maps in insertion order are made of std's `HashMap`, and of `lam_value` only what a constant may be is there.
"""
import glob
import os
import re
import subprocess
import sys
import tempfile

from lam_source import last_catch

HERE = os.path.dirname(os.path.dirname(os.path.abspath(__file__)))
CRATES = ['want_of_memory', 'lam_operators', 'lam_syntax', 'lam_lexer', 'lam_grammar', 'lam_parser_tokens',
          'lam_parser_parts', 'lam_parser_exprs', 'lam_parser_stmts', 'lam_parser', 'lam_print', 'lam_builtins',
          'lam_resolve_tree', 'lam_types_kinds', 'lam_types_exprs', 'lam_types', 'region_check', 'lam_resolve_laws',
          'lam_resolve_tables', 'lam_resolve_exprs', 'lam_resolve_units', 'lam_resolve_stmts', 'lam_resolve', 'lam_bytecode',
          'barrier_compiler_ops', 'barrier_compiler_units', 'barrier_compiler']
GHOST = re.compile(r'ghost |#!?\[tactic|#\[cycle|(requires|ensures)\b.*\{')

# What the crates call that Rust's standard library has not, or has with other parameters.
SHIM = r'''
use std::{borrow::Borrow, collections::HashMap, hash::Hash};
#[derive(Clone, Copy)] pub struct Global;
pub struct AllocError;
pub struct AllocFailed<T>(pub T);
pub fn granted(_: ()) -> Result<(), AllocError> { Ok(()) }
pub fn boxed<T>(_: Global, x: T) -> Result<Box<T>, AllocError> { Ok(Box::new(x)) }
pub fn unboxed<T>(x: Box<T>) -> T { *x }
pub fn string(_: Global, x: &str) -> Result<String, AllocError> { Ok(String::from(x)) }
pub fn list<T: Clone>(_: Global, x: &[T]) -> Result<Vec<T>, AllocError> { Ok(x.to_vec()) }
pub mod itoa {
    pub struct Buffer(String);
    impl Buffer {
        pub fn new() -> Buffer { Buffer(String::new()) }
        pub fn format(&mut self, n: i64) -> &str { self.0 = n.to_string(); &self.0 }
    }
}
pub mod unicode_ident {
    pub fn is_xid_start(c: char) -> bool { c.is_alphabetic() }
    pub fn is_xid_continue(c: char) -> bool { c.is_alphanumeric() || c == '_' }
}
pub struct BTreeMap<K, V>(std::collections::BTreeMap<K, V>);
impl<K: Ord, V> BTreeMap<K, V> {
    pub fn new(_: Global) -> Self { BTreeMap(std::collections::BTreeMap::new()) }
    pub fn get(&self, key: &K) -> Option<&V> { self.0.get(key) }
    pub fn insert(&mut self, key: K, value: V) -> Result<Option<V>, AllocFailed<(K, V)>> { Ok(self.0.insert(key, value)) }
}
pub mod indexmap {
    use super::*;
    pub struct IndexSet<K> { places: HashMap<K, usize>, keys: Vec<K> }
    impl<K: Hash + Eq + Clone> IndexSet<K> {
        pub fn new(_: Global) -> Self { IndexSet { places: HashMap::new(), keys: Vec::new() } }
        pub fn len(&self) -> usize { self.keys.len() }
        pub fn as_slice(&self) -> &[K] { &self.keys }
        pub fn place<Q: Hash + Eq + ?Sized>(&self, key: &Q) -> Option<usize> where K: Borrow<Q> { self.places.get(key).copied() }
        pub fn contains<Q: Hash + Eq + ?Sized>(&self, key: &Q) -> bool where K: Borrow<Q> { self.place(key).is_some() }
        pub fn insert(&mut self, key: K) -> Result<bool, AllocError> { Ok(self.insert_full(key)?.1) }
        pub fn insert_full(&mut self, key: K) -> Result<(usize, bool), AllocError> {
            let end = self.keys.len();
            let at = *self.places.entry(key.clone()).or_insert(end);
            if at == end { self.keys.push(key) }
            Ok((at, at == end))
        }
        pub fn truncate(&mut self, n: usize) { for key in self.keys.drain(n.min(self.keys.len())..) { self.places.remove(&key); } }
    }
    pub struct IndexMap<K, V> { keys: IndexSet<K>, values: Vec<V> }
    impl<K: Hash + Eq + Clone, V> IndexMap<K, V> {
        pub fn new(alloc: Global) -> Self { IndexMap { keys: IndexSet::new(alloc), values: Vec::new() } }
        pub fn len(&self) -> usize { self.values.len() }
        pub fn contains_key<Q: Hash + Eq + ?Sized>(&self, key: &Q) -> bool where K: Borrow<Q> { self.keys.contains(key) }
        pub fn get<Q: Hash + Eq + ?Sized>(&self, key: &Q) -> Option<&V> where K: Borrow<Q> {
            self.keys.place(key).map(|at| &self.values[at])
        }
        pub fn insert(&mut self, key: K, value: V) -> Result<(), AllocError> {
            let (at, new) = self.keys.insert_full(key)?;
            if new { self.values.push(value) } else { self.values[at] = value }
            Ok(())
        }
        pub fn truncate(&mut self, n: usize) { self.keys.truncate(n); self.values.truncate(n) }
    }
}
pub mod lam_value {
    use super::*;
    #[derive(Clone, Copy, Debug, PartialEq, Eq)] pub enum Kind { Int, Bool, Null }
    #[derive(Clone)] pub enum Value { Int(i64), Bool(bool), Bytes(ByteText), Nothing }
    #[derive(Clone)] pub struct ByteText(std::sync::Arc<[u8]>);
    impl ByteText { pub fn from_slice(_: Global, bytes: &[u8]) -> Result<ByteText, AllocError> { Ok(ByteText(bytes.into())) } }
    pub struct Values(Vec<Value>);
    impl Values {
        pub fn new(_: Global) -> Values { Values(Vec::new()) }
        pub fn allocator(&self) -> Global { Global }
        pub fn len(&self) -> u64 { self.0.len() as u64 }
        pub fn push(&mut self, value: Value) { self.0.push(value) }
        pub fn pop(&mut self) -> Option<Value> { self.0.pop() }
        pub fn copy(&self) -> Result<Values, crate::want_of_memory::NoMemory> { Ok(Values(self.0.clone())) }
        pub fn as_slice(&self) -> &[Value] { &self.0 }
    }
}
pub mod lam_meaning_laws { pub fn compiled_code_acts_as_its_source() {} }
'''
MAIN = r'''
use shim::Global;
fn formatted(program: lam_syntax::Program) -> String {
    let Ok(out) = lam_print::print(&program) else { panic!() };
    std::mem::forget(program);
    out
}
fn checked(program: lam_syntax::Program) -> String {
    let Ok(typed) = lam_types::check(program) else { panic!() };
    let Ok(checked) = region_check::regions(typed) else { panic!() };
    let Ok(_code) = barrier_compiler::compile(&checked) else { panic!() };
    std::mem::forget(checked);
    String::from("ok\n")
}
fn main() {
    let words: Vec<String> = std::env::args().collect();
    let bytes = std::fs::read(&words[2]).unwrap();
    let text = std::str::from_utf8(&bytes).unwrap();
    let Ok(tokens) = lam_lexer::lex(Global, text) else { panic!() };
    let Ok(program) = lam_parser::parse(Global, tokens) else { panic!() };
    let out = if words[1] == "check" { checked(program) } else { formatted(program) };
    std::io::Write::write_all(&mut std::io::stdout(), out.as_bytes()).unwrap();
}
'''


def without_ghosts(text):
    """A source without what is there for its proof: clauses, ghost items, models."""
    kept, depth = [], 0
    for line in text.split('\n'):
        if depth or GHOST.match(line.strip()):
            depth += line.count('{') - line.count('}')
        else:
            kept.append(line)
    text = re.sub(r'\nimpl(<[^>]*>)? Model for [^\n]*\{\n(.*?\n)?\}\n', '\n', '\n'.join(kept), flags=re.S)
    for old, new in (('//!', '//'), ('use std::marker::Model;\n', ''), (': Drop>', '>'), (': Drop,', ','),
                     ('Hash, Drop)', 'Hash, Clone)'), ('mod text;\nmod unit;', 'mod unit;'), ('pub use text::listing;\n', '')):
        text = text.replace(old, new)
    return re.sub(r'(derive\([^)]*?)(, )?Drop\)', r'\1)', text)


def in_rust(text, crate):
    """A source as a module of one crate, over Rust's standard library."""
    text = text.replace('crate::', f'crate::{crate}::')
    for name in CRATES:
        text = re.sub(rf'(?<![\w:]){name}::', f'crate::{name}::', text)
    for name in ('itoa', 'unicode_ident', 'indexmap', 'lam_value', 'lam_meaning_laws'):
        text = re.sub(rf'(?<![\w:]){name}::', f'crate::shim::{name}::', text)
    text = re.sub(r'use std::(alloc|collections)::', 'use crate::shim::', text)
    text = re.sub(r'\*\w[\w.]*(\(\)[\w.]+)*\.allocator\(\)', 'crate::shim::Global', text)
    text = re.sub(r'\b(Vec|String)::new\((alloc|crate::shim::Global)\)', r'\1::new()', text)
    text = re.sub(r'\bVec::with_capacity\(alloc, (.*)\)\?;', r'Vec::with_capacity(\1);', text)
    for call, ours in (('Box::new(', 'boxed('), ('Box::into_inner(', 'unboxed('), ('String::from_str(', 'string('),
                       ('Vec::from_slice(', 'list(')):
        text = text.replace(call, f'crate::shim::{ours}')
    inner = r'(?:[^()]|\([^()]*\)|\((?:[^()]|\([^()]*\))*\))*'
    text = re.sub(rf'(\.(?:push|push_str|reserve|clone)\({inner}\))\?', r'\1', text)
    text = re.sub(rf'(match|let Ok\(\(\)\) =) ([\w.]+\.push\({inner}\))', r'\1 crate::shim::granted(\2)', text)
    text = text.replace('.to_string(alloc)?', '.to_string()')
    return re.sub(r'(\n    \w+\.extend_from_slice\(.*\))\n\}', r'\1;\n    Ok(())\n}', text)


def compiled(source, out, folder):
    words = ['rustc', '--edition', '2021', '-C', 'opt-level=3', '-o', os.path.abspath(out), '-C', 'codegen-units=1', source]
    sys.exit(subprocess.run(words, cwd=folder).returncode)


def main():
    if len(sys.argv) == 3 and sys.argv[1] == '--run':
        compiled('plain_run.rs', sys.argv[2], os.path.join(HERE, 'tools'))
    if len(sys.argv) != 2:
        sys.exit(__doc__)
    with tempfile.TemporaryDirectory() as folder:
        for crate in CRATES:
            os.mkdir(os.path.join(folder, crate))
            for path in glob.glob(os.path.join(HERE, 'crates', crate, 'src', '*.rt')):
                name = os.path.basename(path)[:-3].replace('lib', 'mod') + '.rs'
                with open(path, encoding='utf-8') as source, open(os.path.join(folder, crate, name), 'w') as out:
                    out.write(in_rust(without_ghosts(source.read()), crate))
        with open(os.path.join(folder, 'shim.rs'), 'w') as out:
            out.write(SHIM)
        with open(os.path.join(folder, 'main.rs'), 'w') as out:
            out.write('#![allow(warnings)]\nmod shim;\n' + ''.join(f'mod {it};\n' for it in CRATES) + MAIN)
        compiled('main.rs', sys.argv[1], folder)


if __name__ == '__main__':
    last_catch.run(main)
