//! The pool of timetables as plain Rust has it: trees of nodes that datasets share by reference counts. A node with one
//! owner is changed in place, a shared one is copied first. No dead list is kept: what a dataset alone reaches is found
//! by going down its tree as long as each node has one owner.

use std::collections::BTreeMap;
use std::rc::Rc;

pub const BLOCK_BYTES: usize = 64;
const FAN: usize = 8;
const MOST_BLOCKS: u32 = 32_768;
const MOST_ROWS: usize = 256;
const LAST_GROUP: u32 = 65_535;

/// Why a call was refused, with the number that stands for it. A dead table can't be full, as there is none.
#[derive(Clone, Copy, Debug, PartialEq, Eq)]
pub enum Refusal {
    DatasetNumber = 6,
    NoDataset = 7,
    WrongKind = 8,
    NumberUsed = 9,
    OutOfRange = 10,
    HasClones = 11,
    HasSnapshots = 12,
    RowsFull = 13,
    GroupsSpent = 14,
    BlocksShort = 15,
    BadShape = 17,
}

/// How many blocks a call took, and how many it gave back.
#[derive(Clone, Copy, Debug, Default, PartialEq, Eq)]
pub struct Changed {
    pub taken: u32,
    pub given: u32,
}

type Link = Option<Rc<Node>>;

#[derive(Clone)]
enum Node {
    Data([u8; BLOCK_BYTES]),
    Indirect([Link; FAN]),
}

#[derive(Clone, Copy)]
enum Kind {
    /// `used` is what its file system alone has taken and not given back.
    Head {
        origin: Option<u32>,
        snapshots: u32,
        used: u32,
    },
    Snapshot {
        owner: u32,
        clones: u32,
    },
}

struct Dataset {
    height: u32,
    root: Link,
    kind: Kind,
}

pub struct Pool {
    datasets: BTreeMap<u32, Dataset>,
    rows: usize,
    blocks: u32,
    owned: u32,
    group: u32,
}

/// The place in an indirect node of that level that a position leads through.
fn digit(level: u32, position: u32) -> usize {
    (position >> (3 * (level - 1))) as usize % FAN
}

fn filled(text: &[u8]) -> [u8; BLOCK_BYTES] {
    let mut bytes = [0; BLOCK_BYTES];
    bytes[..text.len()].copy_from_slice(text);
    bytes
}

fn fresh(level: u32, position: u32, text: &[u8]) -> Rc<Node> {
    Rc::new(if level == 0 {
        Node::Data(filled(text))
    } else {
        let mut children = [const { None }; FAN];
        children[digit(level, position)] = Some(fresh(level - 1, position, text));
        Node::Indirect(children)
    })
}

/// Writes the text at a position, and answers how many nodes of the old path nothing else shares.
fn put(link: &mut Link, level: u32, position: u32, text: &[u8]) -> u32 {
    let Some(node) = link else {
        *link = Some(fresh(level, position, text));
        return 0;
    };
    let alone = u32::from(Rc::strong_count(node) == 1);
    match Rc::make_mut(node) {
        Node::Data(bytes) => {
            *bytes = filled(text);
            alone
        }
        Node::Indirect(children) => {
            alone
                + put(
                    &mut children[digit(level, position)],
                    level - 1,
                    position,
                    text,
                )
        }
    }
}

/// How many levels of the path stay where its position becomes a hole; nothing where it is one.
fn kept(mut link: &Link, height: u32, position: u32) -> Option<u32> {
    let mut kept = 0;
    for depth in 0..height {
        let Node::Indirect(children) = &**link.as_ref()? else {
            return None;
        };
        let place = digit(height - depth, position);
        if children
            .iter()
            .enumerate()
            .any(|(i, child)| i != place && child.is_some())
        {
            kept = depth + 1;
        }
        link = &children[place];
    }
    link.as_ref().map(|_| kept)
}

/// Cuts the path to a position off below its first `kept` levels, and answers how many nodes of it nothing else shares.
fn cut(link: &mut Link, level: u32, position: u32, kept: u32) -> u32 {
    if kept == 0 {
        return release(link.take());
    }
    let Some(node) = link else {
        return 0;
    };
    let alone = u32::from(Rc::strong_count(node) == 1);
    match Rc::make_mut(node) {
        Node::Data(_) => alone,
        Node::Indirect(children) => {
            alone
                + cut(
                    &mut children[digit(level, position)],
                    level - 1,
                    position,
                    kept - 1,
                )
        }
    }
}

/// Lets go of a tree, and answers how many of its nodes are gone.
fn release(link: Link) -> u32 {
    match link.and_then(Rc::into_inner) {
        None => 0,
        Some(Node::Data(_)) => 1,
        Some(Node::Indirect(children)) => 1 + children.into_iter().map(release).sum::<u32>(),
    }
}

/// How many nodes of a tree nothing else shares.
fn unshared(link: &Link) -> u32 {
    match link {
        Some(node) if Rc::strong_count(node) == 1 => match &**node {
            Node::Data(_) => 1,
            Node::Indirect(children) => 1 + children.iter().map(unshared).sum::<u32>(),
        },
        _ => 0,
    }
}

fn check(yes: bool, refusal: Refusal) -> Result<(), Refusal> {
    if yes { Ok(()) } else { Err(refusal) }
}

fn check_number(number: u32) -> Result<(), Refusal> {
    check((1..=999).contains(&number), Refusal::DatasetNumber)
}

fn check_position(height: u32, position: u32) -> Result<(), Refusal> {
    check(position < 1 << (3 * height), Refusal::OutOfRange)
}

impl Pool {
    pub fn format(blocks: u32, rows: usize) -> Result<Pool, Refusal> {
        let shaped = (1..=MOST_BLOCKS).contains(&blocks) && (1..=MOST_ROWS).contains(&rows);
        check(shaped, Refusal::BadShape)?;
        Ok(Pool {
            datasets: BTreeMap::new(),
            rows,
            blocks,
            owned: 0,
            group: 1,
        })
    }

    fn dataset(&self, number: u32) -> Result<&Dataset, Refusal> {
        check_number(number)?;
        self.datasets.get(&number).ok_or(Refusal::NoDataset)
    }

    fn check_unused(&self, number: u32) -> Result<(), Refusal> {
        check(!self.datasets.contains_key(&number), Refusal::NumberUsed)
    }

    fn check_row(&self) -> Result<(), Refusal> {
        check(self.datasets.len() < self.rows, Refusal::RowsFull)
    }

    pub fn create(&mut self, number: u32, height: u32) -> Result<Changed, Refusal> {
        check_number(number)?;
        self.check_unused(number)?;
        check((1..=4).contains(&height), Refusal::OutOfRange)?;
        self.check_row()?;
        let kind = Kind::Head {
            origin: None,
            snapshots: 0,
            used: 0,
        };
        self.datasets.insert(
            number,
            Dataset {
                height,
                root: None,
                kind,
            },
        );
        Ok(Changed::default())
    }

    pub fn write(&mut self, number: u32, position: u32, text: &[u8]) -> Result<Changed, Refusal> {
        check_number(number)?;
        let head = self.datasets.get_mut(&number).ok_or(Refusal::NoDataset)?;
        let Kind::Head { used, .. } = &mut head.kind else {
            return Err(Refusal::WrongKind);
        };
        check_position(head.height, position)?;
        check(text.len() <= BLOCK_BYTES, Refusal::OutOfRange)?;
        let taken = head.height + 1;
        check(taken <= self.blocks - self.owned, Refusal::BlocksShort)?;
        let given = put(&mut head.root, head.height, position, text);
        *used = *used + taken - given;
        self.owned = self.owned + taken - given;
        Ok(Changed { taken, given })
    }

    pub fn discard(&mut self, number: u32, position: u32) -> Result<Changed, Refusal> {
        check_number(number)?;
        let head = self.datasets.get_mut(&number).ok_or(Refusal::NoDataset)?;
        let Kind::Head { used, .. } = &mut head.kind else {
            return Err(Refusal::WrongKind);
        };
        check_position(head.height, position)?;
        let Some(taken) = kept(&head.root, head.height, position) else {
            return Ok(Changed::default());
        };
        check(taken <= self.blocks - self.owned, Refusal::BlocksShort)?;
        let given = cut(&mut head.root, head.height, position, taken);
        *used = *used + taken - given;
        self.owned = self.owned + taken - given;
        Ok(Changed { taken, given })
    }

    pub fn read(&self, number: u32, position: u32) -> Result<Option<&[u8; BLOCK_BYTES]>, Refusal> {
        let dataset = self.dataset(number)?;
        check_position(dataset.height, position)?;
        let mut link = &dataset.root;
        let mut level = dataset.height;
        while let Some(node) = link {
            match &**node {
                Node::Data(bytes) => return Ok(Some(bytes)),
                Node::Indirect(children) => link = &children[digit(level, position)],
            }
            level -= 1;
        }
        Ok(None)
    }

    pub fn snapshot(&mut self, number: u32, snapshot: u32) -> Result<Changed, Refusal> {
        check_number(number)?;
        check_number(snapshot)?;
        let head = self.dataset(number)?;
        let Kind::Head { .. } = head.kind else {
            return Err(Refusal::WrongKind);
        };
        self.check_unused(snapshot)?;
        self.check_row()?;
        check(self.group < LAST_GROUP, Refusal::GroupsSpent)?;
        let kind = Kind::Snapshot {
            owner: number,
            clones: 0,
        };
        let taken = Dataset {
            height: head.height,
            root: head.root.clone(),
            kind,
        };
        self.datasets.insert(snapshot, taken);
        if let Some(Dataset {
            kind: Kind::Head { snapshots, .. },
            ..
        }) = self.datasets.get_mut(&number)
        {
            *snapshots += 1;
        }
        self.group += 1;
        Ok(Changed::default())
    }

    pub fn clone_snapshot(&mut self, snapshot: u32, number: u32) -> Result<Changed, Refusal> {
        check_number(snapshot)?;
        check_number(number)?;
        let origin = self.dataset(snapshot)?;
        let Kind::Snapshot { .. } = origin.kind else {
            return Err(Refusal::WrongKind);
        };
        self.check_unused(number)?;
        self.check_row()?;
        let kind = Kind::Head {
            origin: Some(snapshot),
            snapshots: 0,
            used: 0,
        };
        let clone = Dataset {
            height: origin.height,
            root: origin.root.clone(),
            kind,
        };
        self.datasets.insert(number, clone);
        if let Some(Dataset {
            kind: Kind::Snapshot { clones, .. },
            ..
        }) = self.datasets.get_mut(&snapshot)
        {
            *clones += 1;
        }
        Ok(Changed::default())
    }

    pub fn destroy(&mut self, number: u32) -> Result<Changed, Refusal> {
        match self.dataset(number)?.kind {
            Kind::Snapshot { clones: 1.., .. } => return Err(Refusal::HasClones),
            Kind::Head { snapshots: 1.., .. } => return Err(Refusal::HasSnapshots),
            _ => {}
        }
        let Some(gone) = self.datasets.remove(&number) else {
            return Err(Refusal::NoDataset);
        };
        let given = release(gone.root);
        let kept_by = match gone.kind {
            Kind::Head { origin, .. } => origin,
            Kind::Snapshot { owner, .. } => Some(owner),
        };
        match kept_by
            .and_then(|other| self.datasets.get_mut(&other))
            .map(|other| &mut other.kind)
        {
            Some(Kind::Head {
                snapshots, used, ..
            }) => {
                *snapshots -= 1;
                *used -= given;
            }
            Some(Kind::Snapshot { clones, .. }) => *clones -= 1,
            None => {}
        }
        self.owned -= given;
        Ok(Changed { taken: 0, given })
    }

    pub fn unique(&self, number: u32) -> Result<u32, Refusal> {
        let dataset = self.dataset(number)?;
        match dataset.kind {
            Kind::Snapshot { clones: 1.., .. } => Err(Refusal::HasClones),
            _ => Ok(unshared(&dataset.root)),
        }
    }

    pub fn used(&self, number: u32) -> Result<u32, Refusal> {
        match self.dataset(number)?.kind {
            Kind::Head { used, .. } => Ok(used),
            Kind::Snapshot { .. } => Err(Refusal::WrongKind),
        }
    }
}
