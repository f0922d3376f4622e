//! The elements of a file as a tree.

use crate::files::File;
use crate::parts;
use dgn::{Dimension, Name, Session, END_MARKER};

/// An element. The numbers are small, since a file can have 262,143 of them.
#[derive(Clone, Copy, Debug)]
pub struct Node {
    /// Where it starts.
    pub place: u32,
    /// The word after its extent.
    pub end: u32,
    /// How many elements stand under it, at all depths.
    pub elements: u32,
    /// The number of the element at the top that it is or stands under.
    top: u32,
    /// A cell's name.
    pub name: Option<Name>,
    /// The number of headers above it.
    pub depth: u8,
    /// Marked deleted.
    pub deleted: bool,
}

impl Node {
    /// A cell's name as a text.
    pub fn code(&self) -> Option<String> {
        self.name.map(|name| dgn::unpack(name).expect("the name of a view"))
    }

    /// How many words its extent has.
    pub fn words(&self) -> u32 {
        self.end - self.place
    }
}

/// All elements of a file in file order.
pub struct Tree<'f> {
    bytes: &'f [u8],
    dimension: Dimension,
    nodes: Vec<Node>,
}

impl<'f> Tree<'f> {
    /// The tree of a file.
    pub fn of(file: &'f File) -> Tree<'f> {
        let (bytes, dimension) = (&file.bytes[..], file.dimension);
        let mut nodes: Vec<Node> = Vec::with_capacity(file.judged.elements);
        let mut open: Vec<usize> = Vec::new();
        for view in parts::walk(bytes, dimension) {
            // an element ends where the next one stands that is no deeper
            while let Some(&last) = open.last().filter(|&&last| usize::from(nodes[last].depth) >= view.depth) {
                nodes[last].end = view.place as u32;
                open.pop();
            }
            for &around in &open {
                nodes[around].elements += 1;
            }
            open.push(nodes.len());
            nodes.push(Node {
                place: view.place as u32,
                end: file.judged.marker as u32,
                elements: 0,
                top: open[0] as u32,
                name: view.name,
                depth: view.depth as u8,
                deleted: view.deleted,
            });
        }
        Tree { bytes, dimension, nodes }
    }

    /// The elements at the top.
    pub fn top(&self) -> Vec<&Node> {
        list(&self.nodes)
    }

    /// The elements directly under one.
    pub fn under(&self, node: &Node) -> Vec<&Node> {
        let number = self.nodes.partition_point(|other| other.place < node.place);
        list(&self.nodes[number + 1..][..node.elements as usize])
    }

    /// The bytes of an element's extent.
    pub fn extent(&self, node: &Node) -> &'f [u8] {
        &self.bytes[2 * node.place as usize..2 * node.end as usize]
    }

    /// The bytes of a cell's extent with no name in it: the library renames it, in a file of the one element at the top.
    pub fn nameless(&self, node: &Node) -> Vec<u8> {
        let top = &self.nodes[node.top as usize];
        let mut file = self.extent(top).to_vec();
        file.extend(END_MARKER);
        let (used, place) = (file.len(), (node.place - top.place) as usize);
        let mut session = Session::resume(file, used, vec![0; 64], 0, self.dimension);
        session.rename(place, "").expect("a cell of a file that was accepted");
        session.file()[2 * place..][..2 * node.words() as usize].to_vec()
    }

    /// The bytes of the extent of an element at the top with none in it marked deleted: the library takes the marks away.
    pub fn live(&self, node: &Node) -> Vec<u8> {
        let file = [self.extent(node), &END_MARKER].concat();
        let (used, room) = (file.len(), 2 * file.len() + 1024);
        let mut session = Session::resume(file, used, vec![0; room], 0, self.dimension);
        // refused where all is marked so already
        let _ = session.mark(0, true);
        let _ = session.mark(0, false);
        session.file()[..2 * node.words() as usize].to_vec()
    }
}

/// Those of the elements, which stand in file order, that stand under none of the others.
fn list(nodes: &[Node]) -> Vec<&Node> {
    let mut list = Vec::new();
    let mut rest = nodes;
    while let [node, behind @ ..] = rest {
        list.push(node);
        rest = &behind[node.elements as usize..];
    }
    list
}
