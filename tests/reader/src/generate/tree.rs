//! Trees of elements, and laying them out as words.

/// Types with a total, as the generator knows them.
pub fn is_header(kind: u64) -> bool {
    matches!(kind, 1 | 2 | 7 | 12 | 14 | 18 | 19)
}

/// Headers with a count.
pub fn is_counted(kind: u64) -> bool {
    is_header(kind) && kind > 2
}

/// An element's own words and the elements under it. The total and the count
/// are written when the tree is laid out.
#[derive(Debug, Clone, Default)]
pub struct Node {
    pub own: Vec<u16>,
    pub under: Vec<Node>,
    /// The element at which a fault is aimed.
    pub aim: bool,
}

impl Node {
    pub fn new(own: Vec<u16>) -> Node {
        Node {
            own,
            under: Vec::new(),
            aim: false,
        }
    }

    pub fn with(own: Vec<u16>, under: Vec<Node>) -> Node {
        Node {
            own,
            under,
            aim: false,
        }
    }

    /// The type.
    pub fn kind(&self) -> u64 {
        self.own
            .first()
            .map_or(0, |word| u64::from(word >> 8 & 127))
    }
}

/// A laid-out tree.
#[derive(Debug, Clone, Default)]
pub struct Laid {
    pub words: Vec<u16>,
    pub elements: u64,
    pub deepest: u64,
    /// Where the aimed element starts.
    pub aim: Option<usize>,
    /// The direct header of the aimed element.
    aim_header: Option<usize>,
}

impl Laid {
    /// The end of the extent that encloses the aimed element; the end of all
    /// words where it stands at the top.
    pub fn aim_bound(&self) -> usize {
        match self.aim_header {
            Some(header) => header + 19 + usize::from(self.words[header + 18]),
            None => self.words.len(),
        }
    }
}

/// Lays out elements one after another.
pub fn lay(nodes: &[Node]) -> Laid {
    let mut laid = Laid::default();
    for node in nodes {
        put(node, 0, None, &mut laid);
    }
    laid
}

fn put(node: &Node, depth: u64, header: Option<usize>, laid: &mut Laid) {
    let start = laid.words.len();
    laid.elements += 1;
    laid.deepest = laid.deepest.max(depth);
    if node.aim {
        laid.aim = Some(start);
        laid.aim_header = header;
    }
    laid.words.extend_from_slice(&node.own);
    for child in &node.under {
        put(child, depth + 1, Some(start), laid);
    }
    let extent = laid.words.len() - start;
    // A header cut too short has no word for its total or its count.
    if is_header(node.kind()) && node.own.len() > 18 {
        laid.words[start + 18] = extent.saturating_sub(19) as u16;
    }
    if is_counted(node.kind()) && node.own.len() > 19 {
        laid.words[start + 19] = node.under.len() as u16;
    }
}
