"""A made-up crate, and outputs of real checks, for the tests of wrong-bodies."""

LIB = '''//! A crate: "fn no() {".
#![tactic(auto)]

mod node;

ghost use Rattle.std.specs.Prelude.{◌≡◌, ◌+◌};

/// The most { of all.
pub const MOST: u16 = 7;

/// Twice a number.
#[tactic(auto, unfolding(crate::specs::Sums::twice))]
pub fn twice(x: u16) -> u16
    requires small { x + x ≤ 100 }
    ensures { result ≡ x + x }
{
    // a brace } in a comment, and one in a text
    let _text = "}";
    x + x
}

/// Four times a number.
pub fn four(x: u16) -> u16
    requires { x ≤ 20 }
    ensures { result ≡ 4 * x }
{
    let once = |y: u16| ensures { result ≡ y } { y };
    twice(twice(once(x)))
}

fn eight(x: u16) -> u16
    ensures { result ≡ 8 * x }
{
    four(x) + four(x)
}
'''

NODE = """pub struct Node<'a> {
    bytes: &'a [u8],
}

impl<'a> Model for Node<'a> {
    ghost view = { λ a. a.bytes };
}

impl<'a> Node<'a> {
    /// The length.
    pub fn len(&self) -> usize
        ensures { result ≡ length self.now }
    {
        self.bytes.len()
    }

    pub fn is_empty(&self) -> bool {
        self.len() == 0
    }
}

impl<'a> Sought for Node<'a> {
    fn is_behind(&self, key: &[u8; 4]) -> bool {
        key[0] < 'b' as u8
    }
}
"""

# Lines of a real check in which five functions were edited at once.
CHECKED = """rt: chose --jobs 4 for h5_btree
checked h5_btree::node::Node::level, 1 of 33
./proofs/node/Node/level/Answers.antt:5:13: error: `returns`: as printed, the two types differ only where one has `4`
  (expected), right after `mathlib.Core.Path.◌≡◌ (`, and the other has `5` (found)
impl h5_btree::name::SoughtNameSought: not proved; it waits for the proof of `is_behind`
impl h5_btree::kind::NodeKindDebug: proved
note: src/kind.rt:71:5: it is not proved that what the function ensures holds when it returns (`returns-clause-capacity`)
fn h5_btree::kind::NodeKind::capacity: no proof: expected answers in ./proofs/kind/NodeKind/capacity/Answers.antt; `search` did not prove `returns-clause-capacity`
fn h5_btree::kind::NodeKind::chunks: proved
fn h5_btree::kind::NodeKind::node_length: no proof: it calls `h5_btree::kind::NodeKind::capacity`, which is not proved
fn h5_btree::node::Node::level: not proved
fn h5_btree::read::read_node_at: no proof: expected answers in ./proofs/read/read_node_at/Answers.antt; `search` did not prove `returns-then`; it calls `h5_btree::kind::NodeKind::node_length`, which is not proved
fn h5_btree::name::SoughtNameSought::is_behind: no proof: expected answers in ./proofs/name/Answers.antt; `search` did not prove `returns`
crate h5_btree: modules loaded=1111 checked=102
logic=not-proved
rt: rt lemma WORD.. finds a lemma by guessed names or words of the goal
"""
NOT_COMPILED = "src/node.rt:86:23: error[mismatched-types]: expected `usize`, found `bool`\n"
NO_FIELD = """./proofs/node/child_at/Answers.antt:6:117: error: `u64_at-requires`: record `X.In-After-place_of` has no field `key_length`
fn h5_btree::node::child_at: not proved
logic=not-proved
"""
UNREAD = "src/node.rt:9:3: error: `returns` is not in scope\nlogic=not-proved\n"
