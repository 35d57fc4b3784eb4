//! A small tree of keys: its nodes, its places, and which node has which key.

use std::collections::BTreeMap;
use std::fmt;

/// A node. The root is node 1, and nodes 2n and 2n + 1 hang on node n.
#[derive(Clone, Copy, Debug, PartialEq, Eq, PartialOrd, Ord)]
pub struct Node(pub u32);

impl Node {
    pub const ROOT: Node = Node(1);

    /// The node that this one hangs on; the root hangs on none.
    pub fn above(self) -> Option<Node> {
        (self != Node::ROOT).then_some(Node(self.0 / 2))
    }

    /// The other node that hangs on the same one.
    pub fn sibling(self) -> Node {
        if self.0.is_multiple_of(2) {
            Node(self.0 + 1)
        } else {
            Node(self.0 - 1)
        }
    }
}

impl fmt::Display for Node {
    fn fmt(&self, f: &mut fmt::Formatter) -> fmt::Result {
        self.0.fmt(f)
    }
}

/// The number of a key: 1 for the first that is drawn, and so on.
#[derive(Clone, Copy, Debug, PartialEq, Eq, PartialOrd, Ord)]
pub struct KeyNumber(pub u32);

impl KeyNumber {
    pub const FIRST: KeyNumber = KeyNumber(1);
    pub const LAST: KeyNumber = KeyNumber(4294967294);
}

impl fmt::Display for KeyNumber {
    fn fmt(&self, f: &mut fmt::Formatter) -> fmt::Result {
        self.0.fmt(f)
    }
}

/// The value of a key: how many keys were ever drawn when it was, itself among them. So no two keys have
/// the same value, though two may have the same number where a change was cut off. The chip has 0 at first.
#[derive(Clone, Copy, Debug, PartialEq, Eq, PartialOrd, Ord)]
pub struct KeyValue(pub u64);

/// A key that a node has.
#[derive(Clone, Copy, Debug, PartialEq, Eq)]
pub struct NodeKey {
    pub number: KeyNumber,
    pub value: KeyValue,
}

/// How many places a tree has: 2^L with 1, 2 or 3 levels.
#[derive(Clone, Copy, Debug, PartialEq, Eq)]
pub enum Places {
    Two,
    Four,
    Eight,
}

impl Places {
    pub const ALL: [Places; 3] = [Places::Two, Places::Four, Places::Eight];

    pub fn from_count(count: u32) -> Option<Places> {
        Places::ALL
            .into_iter()
            .find(|places| places.count() == count)
    }

    pub fn count(self) -> u32 {
        match self {
            Places::Two => 2,
            Places::Four => 4,
            Places::Eight => 8,
        }
    }

    /// Place p is node 2^L + p.
    pub fn node_of(self, place: u32) -> Option<Node> {
        (place < self.count()).then(|| Node(self.count() + place))
    }

    /// Whether the node is that of a place: 2^L <= node < 2^(L+1).
    pub fn is_place(self, node: Node) -> bool {
        (self.count()..2 * self.count()).contains(&node.0)
    }

    /// Whether the node is in the tree and hangs on another: 2 <= node < 2^(L+1).
    pub fn hangs(self, node: Node) -> bool {
        (2..2 * self.count()).contains(&node.0)
    }
}

/// Which nodes have which keys.
#[derive(Clone, Debug, PartialEq, Eq)]
pub struct Tree {
    places: Places,
    keys: BTreeMap<Node, NodeKey>,
    next: KeyNumber,
    /// How many keys were ever drawn, by changes that were cut off too.
    drawn: u64,
}

impl Tree {
    /// A tree in which no node has a key.
    pub fn new(places: Places) -> Tree {
        Tree {
            places,
            keys: BTreeMap::new(),
            next: KeyNumber::FIRST,
            drawn: 0,
        }
    }

    pub fn places(&self) -> Places {
        self.places
    }

    /// The key that the node has, if it has one.
    pub fn key(&self, node: Node) -> Option<NodeKey> {
        self.keys.get(&node).copied()
    }

    /// The number that the next key will have.
    pub fn next_key(&self) -> KeyNumber {
        self.next
    }

    /// Draws the next key; the node has it from now on, in place of any before.
    pub fn draw_key(&mut self, node: Node) -> NodeKey {
        self.drawn += 1;
        let key = NodeKey {
            number: self.next,
            value: KeyValue(self.drawn),
        };
        self.next = KeyNumber(key.number.0 + 1);
        self.keys.insert(node, key);
        key
    }

    /// The tree of before: its keys, and the number that its next key will have. The keys that were drawn
    /// since are lost, and stay drawn.
    pub fn fall_back(&mut self, before: Tree) {
        let drawn = self.drawn;
        *self = Tree { drawn, ..before };
    }

    /// From now on the node has no key.
    pub fn drop_key(&mut self, node: Node) {
        self.keys.remove(&node);
    }
}

#[cfg(test)]
mod tests {
    use super::*;

    fn key(number: u32, value: u64) -> NodeKey {
        NodeKey {
            number: KeyNumber(number),
            value: KeyValue(value),
        }
    }

    #[test]
    fn what_hangs_on_what() {
        assert_eq!(Node::ROOT.above(), None);
        for n in 1..16 {
            let (left, right) = (Node(2 * n), Node(2 * n + 1));
            assert_eq!(left.above(), Some(Node(n)));
            assert_eq!(right.above(), Some(Node(n)));
            assert_eq!(left.sibling(), right);
            assert_eq!(right.sibling(), left);
        }
    }

    #[test]
    fn numbers_of_places() {
        assert_eq!(Places::from_count(2), Some(Places::Two));
        assert_eq!(Places::from_count(4), Some(Places::Four));
        assert_eq!(Places::from_count(8), Some(Places::Eight));
        for count in [0, 1, 3, 5, 6, 7, 9, 16, u32::MAX] {
            assert_eq!(Places::from_count(count), None);
        }
    }

    #[test]
    fn nodes_of_places() {
        assert_eq!(Places::Two.node_of(1), Some(Node(3)));
        assert_eq!(Places::Two.node_of(2), None);
        assert_eq!(Places::Four.node_of(0), Some(Node(4)));
        assert_eq!(Places::Eight.node_of(7), Some(Node(15)));
        assert_eq!(Places::Eight.node_of(u32::MAX), None);
        let places: Vec<u32> = (0..20)
            .filter(|n| Places::Four.is_place(Node(*n)))
            .collect();
        assert_eq!(places, [4, 5, 6, 7]);
        let hang: Vec<u32> = (0..20).filter(|n| Places::Four.hangs(Node(*n))).collect();
        assert_eq!(hang, [2, 3, 4, 5, 6, 7]);
    }

    #[test]
    fn keys_are_numbered_in_order() {
        let mut tree = Tree::new(Places::Two);
        assert_eq!(tree.next_key(), KeyNumber(1));
        assert_eq!(tree.draw_key(Node(3)), key(1, 1));
        assert_eq!(tree.draw_key(Node(1)), key(2, 2));
        assert_eq!(tree.draw_key(Node(3)), key(3, 3));
        assert_eq!(tree.key(Node(3)), Some(key(3, 3)));
        tree.drop_key(Node(3));
        assert_eq!(tree.key(Node(3)), None);
        assert_eq!(tree.key(Node(2)), None);
        assert_eq!(tree.key(Node(1)), Some(key(2, 2)));
        assert_eq!(tree.next_key(), KeyNumber(4));
    }

    #[test]
    fn values_are_never_used_again() {
        let mut tree = Tree::new(Places::Two);
        tree.draw_key(Node(1));
        let before = tree.clone();
        tree.draw_key(Node(2));
        tree.draw_key(Node(1));
        tree.fall_back(before);
        assert_eq!(tree.key(Node(1)), Some(key(1, 1)));
        assert_eq!(tree.key(Node(2)), None);
        assert_eq!(tree.draw_key(Node(1)), key(2, 4));
    }
}
