"""The pages that are made of the sources are as the sources say, and what is said of a call that fails is what its clauses say."""
import os
import subprocess
from xml.etree import ElementTree

from paging.layers import groups_below
from trials import loaded

TOP = os.path.dirname(os.path.dirname(os.path.dirname(os.path.realpath(__file__))))
SOURCE = '''
impl<L: Ledger> Kept<L> {
    /// Puts one more; after it the text is longer.
    pub fn put(&mut self, alloc: Global, text: &mut Vec<u8>, name: &Name) -> Result<(), AllocError>
        ghost here: { World }
        requires room { 0 < self.old.1 }
        // What it has; in one piece.
        ensures put { OnOk result (self.new ≡ record self.old { lines = 1; }) }
        ensures { OnErr result (self.new ≡ self.old) }
        ensures count { self.old.count ≤ self.new.count }
    {
        self.text.push(name)
    }

    fn hidden(&mut self) -> Result<(), AllocError> {
        Ok(())
    }
}

pub trait Source {
    fn read(&mut self, buf: &mut [u8]) -> Result<usize, Failed>
        ensures bytes { IfOk result (λ n. n ≤ length buf.new) };

    fn left(&self) -> usize
        ensures { result ≡ 0 };
}

pub fn write_all<K: Sink>(sink: &mut K, bytes: &[u8]) -> Result<(), Failed>
    ensures prefix { OnErr result (AppendsPrefix (K.written sink.old) (K.written sink.new) bytes.now) }
{
    Ok(())
}
'''
# Owner, name, and what stands of each of these after a failure.
WANTED = [('Kept', 'put', {'self': '`result`, always `count`', 'text': '*nothing*'}), ('Source', 'read', {'self': '*nothing*', 'buf': '*nothing*'}),
          ('Source', 'left', {}), ('', 'write_all', {'sink': '`prefix`'})]


def run(check):
    ran = subprocess.run([f'{TOP}/tools/pages', '--check'], capture_output=True, text=True)
    check(ran.returncode == 0, f'tools/pages --check: {ran.stdout}{ran.stderr}')
    pages = loaded('tools/pages')
    found = list(pages.functions_in(SOURCE))
    check([(owner, name) for owner, name, _, _ in found] == [(owner, name) for owner, name, _ in WANTED], f'tools/pages finds the functions {found}')
    for (owner, name, _, clauses), (_, _, wanted) in zip(found, WANTED):
        told = {lent: pages.stands_of(lent, clauses) for lent in wanted}
        check(told == wanted, f'tools/pages says of {owner}::{name}: {told}')
    shown(check, pages)
    layers(check, pages)


ROOT = '''mod clusters;
pub use clusters::{
    Cluster, MAX_HOSTS, read_cluster,
};
pub use texts::Text;
pub struct Own {}
'''


def shown(check, pages):
    found = pages.main_types('ev_x', ROOT), pages.main_types('ev_x', 'pub use a::{b, c, d, e, f};\npub fn g() {}'), pages.main_types('ev_x', 'mod a;')
    check(found == ('`Own`, `Cluster`, `Text`', '`g`, `b`, `c`, `d` and 2 more', ''), f'tools/pages finds the types {found}')
    found = pages.type_comment('/// How it is. More.\n/// Still more.\n#[derive(Drop)]\npub enum Kind {', 'Kind')
    check(found == 'how it is.', f'tools/pages finds the comment {found!r}')


def layers(check, pages):
    """The picture of the layers has each crate once, each group above those that it depends on, and is well-formed."""
    tree = ElementTree.parse(f'{TOP}/docs/pictures/layers.svg').getroot()
    texts = [(it.text, float(it.get('y'))) for it in tree.iter('{http://www.w3.org/2000/svg}text')]
    names = [text for text, _ in texts]
    check(all(names.count(name) == 1 for name, _ in pages.crates()), 'docs/pictures/layers.svg has each crate once')
    below = groups_below(pages.groups(), dict(pages.crates()))
    high = dict(texts)
    check(all(high[heading] < high[it] for heading in below for it in below[heading]), 'docs/pictures/layers.svg has each group above what it depends on')
    right = [float(it.get('x', 0)) + float(it.get('width')) for it in tree.iter('{http://www.w3.org/2000/svg}rect')]
    check(max(right) <= float(tree.get('width')), 'docs/pictures/layers.svg has all boxes within its width')
