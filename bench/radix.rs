//! A tree of pointers after the BSD radix tree of Net/3: inner nodes test one bit and know their parent; a route's mask is
//! noted at the highest node above its leaf whose bit is not before the mask's end. A search goes down by bits, tries the
//! leaf's routes, and climbs; at each node on the way up it searches once more from there for each mask noted.
use crate::engines::Engine;
use crate::tables::{mask, side, Route};
use std::ptr::null_mut;

struct Node {
    // 32 in a leaf
    bit: u32,
    parent: *mut Node,
    children: [*mut Node; 2],
    // inner: the masks noted here, longest first
    masks: Vec<u32>,
    // leaf: its address and its routes, longest first
    key: u32,
    routes: Vec<Route>,
}

pub struct Radix {
    root: *mut Node,
}

const LEAF: u32 = 32;

fn new(bit: u32, key: u32, routes: Vec<Route>) -> *mut Node {
    Box::into_raw(Box::new(Node { bit, parent: null_mut(), children: [null_mut(); 2], masks: vec![], key, routes }))
}

/// Down by bits from a node to a leaf.
///
/// # Safety
/// The node stands in a tree that is whole.
unsafe fn down(mut node: *mut Node, key: u32) -> *mut Node {
    while (*node).bit < LEAF {
        node = (&(*node).children)[side(key, (*node).bit)];
    }
    node
}

impl Radix {
    pub fn new(routes: &[Route]) -> Radix {
        let mut tree = Radix { root: null_mut() };
        for &route in routes {
            // Safe: the tree is whole before and after each insertion.
            unsafe { tree.insert(route) };
        }
        for route in routes {
            unsafe { tree.note(route) };
        }
        tree
    }

    unsafe fn insert(&mut self, route: Route) {
        let key = route[0];
        if self.root.is_null() {
            self.root = new(LEAF, key, vec![route]);
            return;
        }
        let near = down(self.root, key);
        if (*near).key == key {
            let routes = &mut (*near).routes;
            let place = routes.iter().position(|r| r[1] < route[1]).unwrap_or(routes.len());
            routes.insert(place, route);
            return;
        }
        let bit = ((*near).key ^ key).leading_zeros();
        let mut below = self.root;
        while (*below).bit < bit {
            below = (&(*below).children)[side(key, (*below).bit)];
        }
        self.part(below, bit, new(LEAF, key, vec![route]));
    }

    /// A new inner node above `below`, with the new leaf on its other side.
    unsafe fn part(&mut self, below: *mut Node, bit: u32, leaf: *mut Node) {
        let inner = new(bit, 0, vec![]);
        let right = side((*leaf).key, bit);
        let parent = (*below).parent;
        (*inner).parent = parent;
        (*inner).children[right] = leaf;
        (*inner).children[1 - right] = below;
        (*leaf).parent = inner;
        (*below).parent = inner;
        if parent.is_null() {
            self.root = inner;
        } else {
            let from = usize::from((*parent).children[1] == below);
            (*parent).children[from] = inner;
        }
    }

    /// Notes a route's mask as high as it may stand; under a leaf's own mask there is nothing to note.
    unsafe fn note(&mut self, route: &Route) {
        let mut node = down(self.root, route[0]);
        let mut above = (*node).parent;
        while !above.is_null() && (*above).bit >= route[1] {
            node = above;
            above = (*node).parent;
        }
        let word = mask(route[1]);
        if (*node).bit < LEAF && !(*node).masks.contains(&word) {
            (*node).masks.push(word);
            (*node).masks.sort_by(|a, b| b.cmp(a));
        }
    }

    unsafe fn search(&self, to: u32) -> Option<&Route> {
        if self.root.is_null() {
            return None;
        }
        let leaf = down(self.root, to);
        let shared = ((*leaf).key ^ to).leading_zeros();
        if let Some(route) = (&(*leaf).routes).iter().find(|r| r[1] <= shared) {
            return Some(route);
        }
        let mut node = (*leaf).parent;
        while !node.is_null() {
            for &word in &(*node).masks {
                let other = down(node, to & word);
                if (*other).key == to & word {
                    if let Some(route) = (&(*other).routes).iter().find(|r| mask(r[1]) == word) {
                        return Some(route);
                    }
                }
            }
            node = (*node).parent;
        }
        None
    }
}

impl Engine for Radix {
    #[inline(never)]
    fn lookup(&self, to: u32, route: &mut Route) -> u32 {
        // Safe: the tree is whole, and nothing changes it after it is made.
        match unsafe { self.search(to) } {
            Some(found) => {
                *route = *found;
                0
            }
            None => 13,
        }
    }
}

impl Drop for Radix {
    fn drop(&mut self) {
        let mut left = vec![self.root];
        while let Some(node) = left.pop() {
            if !node.is_null() {
                // Safe: each node hangs at one place and is taken back once.
                let node = unsafe { Box::from_raw(node) };
                left.extend(node.children);
            }
        }
    }
}
