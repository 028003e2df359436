//! Texts and lists that are edited, in plain Rust: in one vector, and in a tree of shared nodes that never change (a treap).
use std::rc::Rc;

/// Something that takes so much room in a list.
pub trait Weigh: Clone {
    fn weight(&self) -> usize;
}

type Tree<T> = Option<Rc<Node<T>>>;

struct Node<T> {
    left: Tree<T>,
    item: T,
    right: Tree<T>,
    weight: usize,
    priority: u64,
}

fn weight<T>(tree: &Tree<T>) -> usize {
    tree.as_ref().map_or(0, |node| node.weight)
}

fn node<T: Weigh>(left: Tree<T>, item: T, right: Tree<T>, priority: u64) -> Tree<T> {
    let weight = weight(&left) + item.weight() + weight(&right);
    Some(Rc::new(Node { left, item, right, weight, priority }))
}

// What stands before a place, the item over it with the part of it that does, and what stands behind.
fn split<T: Weigh>(tree: &Tree<T>, at: usize) -> (Tree<T>, Option<(T, usize)>, Tree<T>) {
    let Some(root) = tree else {
        return (None, None, None);
    };
    let before = weight(&root.left);
    if at < before {
        let (left, over, right) = split(&root.left, at);
        return (left, over, node(right, root.item.clone(), root.right.clone(), root.priority));
    }
    let behind = before + root.item.weight();
    if at == before {
        let right = node(None, root.item.clone(), root.right.clone(), root.priority);
        return (root.left.clone(), None, right);
    }
    if at < behind {
        return (root.left.clone(), Some((root.item.clone(), at - before)), root.right.clone());
    }
    let (left, over, right) = split(&root.right, at - behind);
    (node(root.left.clone(), root.item.clone(), left, root.priority), over, right)
}

fn join<T: Weigh>(left: &Tree<T>, right: &Tree<T>) -> Tree<T> {
    match (left, right) {
        (None, other) | (other, None) => other.clone(),
        (Some(a), Some(b)) if a.priority >= b.priority => {
            node(a.left.clone(), a.item.clone(), join(&a.right, right), a.priority)
        }
        (Some(_), Some(b)) => node(join(left, &b.left), b.item.clone(), b.right.clone(), b.priority),
    }
}

fn last<T: Weigh>(tree: &Tree<T>) -> Option<&T> {
    let mut node = tree.as_ref()?;
    while let Some(right) = &node.right {
        node = right;
    }
    Some(&node.item)
}

fn walk<T>(tree: &Tree<T>, visit: &mut impl FnMut(&T)) {
    if let Some(node) = tree {
        walk(&node.left, visit);
        visit(&node.item);
        walk(&node.right, visit);
    }
}

/// The next number of a row that looks random.
pub fn next(seed: &mut u64) -> u64 {
    *seed = seed.wrapping_mul(6364136223846793005).wrapping_add(1442695040888963407);
    *seed >> 33
}

#[derive(Clone)]
struct Piece {
    block: Rc<[u8]>,
    from: usize,
    len: usize,
}

impl Piece {
    fn of(bytes: &[u8]) -> Piece {
        Piece { block: Rc::from(bytes), from: 0, len: bytes.len() }
    }

    fn bytes(&self) -> &[u8] {
        &self.block[self.from..self.from + self.len]
    }

    fn part(&self, from: usize, len: usize) -> Piece {
        Piece { block: Rc::clone(&self.block), from: self.from + from, len }
    }
}

impl Weigh for Piece {
    fn weight(&self) -> usize {
        self.len
    }
}

/// A text in shared blocks. What is put in behind a small block makes one block with it.
#[derive(Clone)]
pub struct Rope {
    tree: Tree<Piece>,
    seed: u64,
}

impl Rope {
    pub fn of(text: &[u8]) -> Rope {
        Rope { tree: node(None, Piece::of(text), None, 1), seed: 1 }
    }

    pub fn len(&self) -> usize {
        weight(&self.tree)
    }

    pub fn insert(&mut self, at: usize, bytes: &[u8]) {
        let (mut left, over, mut right) = split(&self.tree, at);
        if let Some((piece, front)) = over {
            left = self.with(left, piece.part(0, front), None);
            right = self.with(None, piece.part(front, piece.len - front), right);
        }
        let piece = match last(&left) {
            Some(last) if last.len + bytes.len() <= 1024 => {
                let joined = Piece::of(&[last.bytes(), bytes].concat());
                left = split(&left, weight(&left) - last.len).0;
                joined
            }
            _ => Piece::of(bytes),
        };
        left = self.with(left, piece, None);
        self.tree = join(&left, &right);
    }

    fn with(&mut self, left: Tree<Piece>, piece: Piece, right: Tree<Piece>) -> Tree<Piece> {
        let one = node(None, piece, None, next(&mut self.seed));
        join(&join(&left, &one), &right)
    }

    /// How many lines it has.
    pub fn lines(&self) -> usize {
        let (mut count, mut ends) = (0, true);
        walk(&self.tree, &mut |piece: &Piece| {
            count += piece.bytes().iter().filter(|byte| **byte == b'\n').count();
            ends = piece.bytes().last().map_or(ends, |byte| *byte == b'\n');
        });
        count + usize::from(!ends)
    }
}

#[derive(Clone)]
struct Tally(#[allow(dead_code)] u32);

impl Weigh for Tally {
    fn weight(&self) -> usize {
        1
    }
}

/// How many items a tree of so many has after so many of them were replaced.
pub fn size_after(items: u32, edits: u64) -> usize {
    let mut seed = 1;
    let mut tree: Tree<Tally> = None;
    for item in 0..items {
        let one = node(None, Tally(item), None, next(&mut seed));
        tree = join(&tree, &one);
    }
    for _edit in 0..edits {
        let number = next(&mut seed);
        let (left, _, right) = split(&tree, number as usize % weight(&tree));
        let (_, _, right) = split(&right, 1);
        let one = node(None, Tally(number as u32), None, next(&mut seed));
        tree = join(&join(&left, &one), &right);
    }
    weight(&tree)
}
