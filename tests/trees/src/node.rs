//! A tree as its writer has it in mind, the commands that it then asks for, and what it
//! becomes by the corrections of another.

/// The deepest level of a node, the root's being 1.
pub const DEPTH: usize = 16;

/// A command that a tree asks for.
#[derive(Clone, Copy, Debug, PartialEq, Eq)]
pub enum Ask {
    Add {
        base: u64,
        size: u64,
        node: u32,
    },
    Reserve {
        base: u64,
        size: u64,
    },
    /// No-map.
    Mark {
        base: u64,
        size: u64,
    },
}

#[derive(Clone, Debug, Default, PartialEq, Eq)]
pub struct Node {
    pub name: Vec<u8>,
    /// Names without their zero, and values.
    pub properties: Vec<(Vec<u8>, Vec<u8>)>,
    pub children: Vec<Node>,
}

#[derive(Clone, Debug, Default, PartialEq, Eq)]
pub struct Tree {
    /// The reservation list, without its end; no pair of two zeros.
    pub list: Vec<(u64, u64)>,
    pub root: Node,
}

/// A property in its place: path, name and value.
pub type Listed = (Vec<u8>, Vec<u8>, Vec<u8>);

/// A word as a value.
pub fn word(x: u32) -> Vec<u8> {
    x.to_be_bytes().to_vec()
}

/// A `reg` with these ranges, by so many cells for address and size; what does not fit
/// its cells loses its upper half.
pub fn reg(cells: (u32, u32), ranges: &[(u64, u64)]) -> Vec<u8> {
    let mut value = Vec::new();
    for &(base, size) in ranges {
        for (cells, number) in [(cells.0, base), (cells.1, size)] {
            value.extend(&number.to_be_bytes()[8 - 4 * cells as usize..]);
        }
    }
    value
}

impl Node {
    pub fn new(name: impl AsRef<[u8]>) -> Node {
        Node {
            name: name.as_ref().to_vec(),
            ..Node::default()
        }
    }

    pub fn with(mut self, name: impl AsRef<[u8]>, value: impl AsRef<[u8]>) -> Node {
        self.properties
            .push((name.as_ref().to_vec(), value.as_ref().to_vec()));
        self
    }

    pub fn holding(mut self, child: Node) -> Node {
        self.children.push(child);
        self
    }

    /// A memory node.
    pub fn memory(name: impl AsRef<[u8]>, reg: impl AsRef<[u8]>) -> Node {
        Node::new(name)
            .with("device_type", "memory\0")
            .with("reg", reg)
    }

    /// The value of the first property of a name.
    pub fn first(&self, name: &str) -> Option<&Vec<u8>> {
        let property = self.properties.iter().find(|p| p.0 == name.as_bytes());
        property.map(|property| &property.1)
    }

    /// Goes through a node and those in it, in tree order, each with its path; `before` is
    /// that of the node above, nothing for the root.
    fn each(&mut self, before: Option<&[u8]>, seen: &mut dyn FnMut(&[u8], &mut Node)) {
        let path = match before {
            None => Vec::new(),
            Some(before) => [before, b"/", &self.name].concat(),
        };
        seen(if before.is_none() { b"/" } else { &path }, self);
        for child in &mut self.children {
            child.each(Some(&path), seen);
        }
    }

    /// How many levels of nodes there are.
    pub fn depth(&self) -> usize {
        1 + self.children.iter().map(Node::depth).max().unwrap_or(0)
    }

    /// The ranges of `reg`; none where there is no `reg`; nothing where it is ragged.
    fn ranges(&self, cells: (u32, u32)) -> Option<Vec<(u64, u64)>> {
        let Some(reg) = self.first("reg") else {
            return Some(Vec::new());
        };
        let words: Vec<u64> = reg
            .chunks(4)
            .map(|w| (w.len() == 4).then(|| u32::from_be_bytes([w[0], w[1], w[2], w[3]]).into()))
            .collect::<Option<_>>()?;
        let entries = words.chunks((cells.0 + cells.1) as usize);
        let join = |words: &[u64]| words.iter().fold(0u64, |sum, word| sum << 32 | word);
        entries
            .map(|entry| {
                let (base, size) = entry.split_at_checked(cells.0 as usize)?;
                (size.len() == cells.1 as usize).then(|| (join(base), join(size)))
            })
            .collect()
    }
}

impl Tree {
    /// The root's cells for address and size, if they may be so.
    pub fn cells(&self) -> Option<(u32, u32)> {
        let cells = |name: &str, absent: u32| match self.root.first(name).map(|v| &v[..]) {
            None => Some(absent),
            Some([0, 0, 0, cells @ 1..=2]) => Some(u32::from(*cells)),
            Some(_) => None,
        };
        Some((cells("#address-cells", 2)?, cells("#size-cells", 1)?))
    }

    /// The commands in order; nothing where the tree is not read.
    pub fn asks(&self) -> Option<Vec<Ask>> {
        let cells = self.cells()?;
        if self.root.depth() > DEPTH {
            return None;
        }
        let mut asks = Vec::new();
        for child in &self.root.children {
            if child.first("device_type").map(|v| &v[..]) != Some(b"memory\0") {
                continue;
            }
            let node = match child.first("numa-node-id").map(|v| &v[..]) {
                None => 0,
                Some([0, 0, 0, node @ 0..=63]) => u32::from(*node),
                Some(_) => return None,
            };
            let ranges = child.ranges(cells)?.into_iter();
            asks.extend(ranges.map(|(base, size)| Ask::Add { base, size, node }));
        }
        let list = self.list.iter();
        asks.extend(list.map(|&(base, size)| Ask::Reserve { base, size }));
        let reserved: Vec<(&Node, Vec<(u64, u64)>)> = (self.root.children.iter())
            .filter(|child| child.name == b"reserved-memory")
            .flat_map(|child| &child.children)
            .map(|node| Some((node, node.ranges(cells)?)))
            .collect::<Option<_>>()?;
        for no_map in [false, true] {
            for (node, ranges) in &reserved {
                if node.first("no-map").is_some() == no_map {
                    asks.extend(ranges.iter().map(|&(base, size)| match no_map {
                        false => Ask::Reserve { base, size },
                        true => Ask::Mark { base, size },
                    }));
                }
            }
        }
        Some(asks)
    }

    /// Every property in tree order.
    pub fn listing(&self) -> Vec<Listed> {
        let mut list = Vec::new();
        self.root.clone().each(None, &mut |path, node| {
            for (name, value) in &node.properties {
                list.push((path.to_vec(), name.clone(), value.clone()));
            }
        });
        list
    }

    /// The value of the first property of a path and a name.
    pub fn lookup(&self, path: &[u8], name: &[u8]) -> Option<Vec<u8>> {
        let mut list = self.listing().into_iter();
        let found = list.find(|listed| listed.0 == path && listed.1 == name);
        found.map(|listed| listed.2)
    }

    /// The tree with what another has at the path of each node before its own properties.
    pub fn corrected(&self, service: &Tree) -> Tree {
        let corrections = service.listing();
        let mut tree = self.clone();
        tree.root.each(None, &mut |path, node| {
            let here = corrections.iter().filter(|listed| listed.0 == path);
            let here = here.map(|(_, name, value)| (name.clone(), value.clone()));
            node.properties = here.chain(node.properties.drain(..)).collect();
        });
        tree
    }

    /// The node at a path of child numbers.
    pub fn at(&mut self, path: &[usize]) -> &mut Node {
        path.iter()
            .fold(&mut self.root, |node, &i| &mut node.children[i])
    }
}
