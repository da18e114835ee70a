//! What may be shown. The search is not proved, and the check of trees from elsewhere is: so a tree is shown only after
//! it has passed that check for its very net, with the cost and the metal that the check gives.

use calzundi::{Edge, Net, Passed, Refusal, Tree};

/// A tree of which nothing is known. Nobody can look at it: it can only be had checked.
///
/// ```compile_fail,E0616
/// use tools::shorten::checked::Unchecked;
///
/// let tree = Unchecked::of(Vec::new());
/// println!("{:?}", tree.edges);
/// ```
pub struct Unchecked {
    edges: Vec<Edge>,
}

impl Unchecked {
    pub fn of(edges: Vec<Edge>) -> Unchecked {
        Unchecked { edges }
    }
}

/// A tree that has passed the check, and the net for which it has. Nothing but the check makes one:
///
/// ```
/// use calzundi::{Edge, Net, Place};
/// use tools::shorten::checked::{Checked, Unchecked};
///
/// let net = Net::new([(0, 0), (4, 0)], []);
/// let place = |x| Place { x, y: 0 };
/// let edges = vec![Edge { first: place(0), second: place(4) }];
/// let checked = Checked::of(&net, Unchecked::of(edges)).unwrap();
/// assert_eq!(checked.tree().total, 4);
/// ```
///
/// It cannot be put together,
///
/// ```compile_fail,E0451
/// use calzundi::{Net, Tree};
/// use tools::shorten::checked::Checked;
///
/// let net = Net::new([(0, 0), (4, 0)], []);
/// let checked = Checked { net: &net, tree: Tree::default() };
/// ```
///
/// nor altered:
///
/// ```compile_fail,E0596
/// use calzundi::{Edge, Net, Place};
/// use tools::shorten::checked::{Checked, Unchecked};
///
/// let net = Net::new([(0, 0), (4, 0)], []);
/// let place = |x| Place { x, y: 0 };
/// let edges = vec![Edge { first: place(0), second: place(4) }];
/// let checked = Checked::of(&net, Unchecked::of(edges)).unwrap();
/// checked.tree().edges.clear();
/// ```
#[derive(Clone, Debug, PartialEq, Eq)]
pub struct Checked<'net> {
    net: &'net Net,
    tree: Tree,
}

/// A tree that has not passed, and why. It goes into a report, and nowhere else.
#[derive(Clone, Debug, PartialEq, Eq)]
pub struct NotPassed {
    pub(super) edges: Vec<Edge>,
    pub refusal: Refusal,
}

impl<'net> Checked<'net> {
    /// Has a tree of a net checked. Its edges are given in order, each from its smaller place on.
    pub fn of(net: &'net Net, unchecked: Unchecked) -> Result<Checked<'net>, NotPassed> {
        let in_order = |edge: Edge| Edge {
            first: edge.first.min(edge.second),
            second: edge.first.max(edge.second),
        };
        let mut edges: Vec<Edge> = unchecked.edges.into_iter().map(in_order).collect();
        edges.sort_unstable();
        match net.check_tree(&edges) {
            Ok(Passed { cost, metal }) => {
                let tree = Tree {
                    edges,
                    total: cost,
                    metal,
                };
                Ok(Checked { net, tree })
            }
            Err(refusal) => Err(NotPassed { edges, refusal }),
        }
    }

    pub fn net(&self) -> &'net Net {
        self.net
    }

    pub fn tree(&self) -> &Tree {
        &self.tree
    }
}
