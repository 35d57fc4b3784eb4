//! Changes of a tree of keys: what a put or a taking out writes, and the tree afterwards.

use std::fmt;

use crate::records::{LONGEST_CONTENT, Record};
use crate::transparent;
use crate::tree::{KeyNumber, Node, NodeKey, Tree};

/// No such place, or a content of 0 or more than 4096 bytes.
#[derive(Clone, Copy, Debug, PartialEq, Eq)]
pub struct Refused;

/// The records of a change in their order, and the root's new key.
#[derive(Clone, Debug, PartialEq, Eq)]
pub struct Change {
    pub records: Vec<Record>,
    pub root: KeyNumber,
}

impl Change {
    /// The bytes of the records, one after another.
    pub fn encode(&self) -> Vec<u8> {
        self.records.iter().flat_map(Record::encode).collect()
    }
}

impl fmt::Display for Change {
    fn fmt(&self, f: &mut fmt::Formatter) -> fmt::Result {
        for record in &self.records {
            write!(f, "{record}; ")?;
        }
        write!(f, "root {}", self.root)
    }
}

/// Puts a content in a place: its node gets the next key, under which the content is sealed; then
/// new keys from there up.
pub fn put(tree: &mut Tree, place: u32, content: &[u8]) -> Result<Change, Refused> {
    let node = tree.places().node_of(place).ok_or(Refused)?;
    if !(1..=LONGEST_CONTENT).contains(&content.len()) {
        return Err(Refused);
    }
    let key = tree.draw_key(node);
    let record = Record::Content {
        node,
        key: key.number,
        sealed: transparent::seal(content, key.value),
    };
    Ok(renew_above(tree, node, record))
}

/// Takes out what a place holds, if it holds anything: its node has no key any more; then new keys
/// from there up.
pub fn take_out(tree: &mut Tree, place: u32) -> Result<Change, Refused> {
    let node = tree.places().node_of(place).ok_or(Refused)?;
    let record = Record::TakenOut {
        node,
        next: tree.next_key(),
    };
    tree.drop_key(node);
    Ok(renew_above(tree, node, record))
}

/// From a place up, each node that it hangs on gets the next key, under which the keys of both nodes
/// that hang on it are sealed as far as they have any: first that of the node on the way, then that of
/// its sibling.
fn renew_above(tree: &mut Tree, place: Node, first: Record) -> Change {
    let mut records = vec![first];
    let mut node = place;
    while let Some(above) = node.above() {
        let under = tree.draw_key(above);
        for below in [node, node.sibling()] {
            records.extend(sealed_key(tree, below, under));
        }
        node = above;
    }
    let root = tree.key(Node::ROOT).expect("every place is below the root");
    Change {
        records,
        root: root.number,
    }
}

/// The record of a node's key, if the node has one.
fn sealed_key(tree: &Tree, node: Node, under: NodeKey) -> Option<Record> {
    let key = tree.key(node)?;
    Some(Record::Key {
        node,
        key: key.number,
        under: under.number,
        sealed: transparent::seal(&transparent::key(key.value).0, under.value),
    })
}

#[cfg(test)]
mod tests {
    use super::*;
    use crate::hex;
    use crate::tree::Places;

    fn readable(change: Result<Change, Refused>) -> String {
        change.expect("a change").to_string()
    }

    /// The keys of the nodes from the root on, 0 where there is none.
    fn keys(tree: &Tree) -> Vec<u32> {
        let nodes = 1..2 * tree.places().count();
        nodes
            .map(|node| tree.key(Node(node)).map_or(0, |key| key.number.0))
            .collect()
    }

    #[test]
    fn two_puts_and_a_taking_out() {
        let mut tree = Tree::new(Places::Four);
        assert_eq!(
            readable(put(&mut tree, 0, b"x")),
            "content of node 4 under key 1: 78; key 1 of node 4 under key 2; \
             key 2 of node 2 under key 3; root 3"
        );
        assert_eq!(keys(&tree), [3, 2, 0, 1, 0, 0, 0]);
        assert_eq!(
            readable(put(&mut tree, 1, b"y")),
            "content of node 5 under key 4: 79; key 4 of node 5 under key 5; \
             key 1 of node 4 under key 5; key 5 of node 2 under key 6; root 6"
        );
        assert_eq!(keys(&tree), [6, 5, 0, 1, 4, 0, 0]);
        assert_eq!(
            readable(take_out(&mut tree, 0)),
            "node 4 taken out, next key 7; key 4 of node 5 under key 7; \
             key 7 of node 2 under key 8; root 8"
        );
        assert_eq!(keys(&tree), [8, 7, 0, 0, 4, 0, 0]);
    }

    #[test]
    fn siblings_on_every_level() {
        let mut tree = Tree::new(Places::Eight);
        for (place, content) in [(0, b"a"), (3, b"b"), (6, b"c")] {
            put(&mut tree, place, content).expect("a change");
        }
        assert_eq!(
            keys(&tree),
            [12, 7, 11, 2, 6, 0, 10, 1, 0, 0, 5, 0, 0, 9, 0]
        );
        assert_eq!(
            readable(put(&mut tree, 2, b"d")),
            "content of node 10 under key 13: 64; key 13 of node 10 under key 14; \
             key 5 of node 11 under key 14; key 14 of node 5 under key 15; \
             key 2 of node 4 under key 15; key 15 of node 2 under key 16; \
             key 11 of node 3 under key 16; root 16"
        );
    }

    #[test]
    fn a_place_that_holds_something_gets_a_new_key() {
        let mut tree = Tree::new(Places::Two);
        put(&mut tree, 1, b"x").expect("a change");
        assert_eq!(
            readable(put(&mut tree, 1, b"y")),
            "content of node 3 under key 3: 79; key 3 of node 3 under key 4; root 4"
        );
    }

    #[test]
    fn a_place_that_holds_nothing_may_be_taken_out() {
        let mut tree = Tree::new(Places::Two);
        assert_eq!(
            readable(take_out(&mut tree, 0)),
            "node 2 taken out, next key 1; root 1"
        );
        let mut tree = Tree::new(Places::Four);
        assert_eq!(
            readable(take_out(&mut tree, 3)),
            "node 7 taken out, next key 1; key 1 of node 3 under key 2; root 2"
        );
    }

    #[test]
    fn bytes_of_a_change() {
        let mut tree = Tree::new(Places::Two);
        let change = put(&mut tree, 0, b"x").expect("a change");
        assert_eq!(
            hex::encode(&change.encode()),
            "43 00000002 00000001 0001 78 00000000000000000000000000000001 \
             4b 00000002 00000001 00000002 00000000000000000000000000000001 \
             00000000000000000000000000000000 00000000000000000000000000000002"
                .replace(' ', "")
        );
        let change = take_out(&mut tree, 0).expect("a change");
        assert_eq!(hex::encode(&change.encode()), "450000000200000003");
    }

    #[test]
    fn refused_changes_change_nothing() {
        let mut tree = Tree::new(Places::Four);
        put(&mut tree, 2, &[7; 4096]).expect("a change");
        let before = tree.clone();
        for place in [4, 5, u32::MAX - 3, u32::MAX] {
            assert_eq!(put(&mut tree, place, b"x"), Err(Refused));
            assert_eq!(take_out(&mut tree, place), Err(Refused));
        }
        assert_eq!(put(&mut tree, 0, &[]), Err(Refused));
        assert_eq!(put(&mut tree, 0, &[7; 4097]), Err(Refused));
        assert_eq!(tree, before);
    }
}
