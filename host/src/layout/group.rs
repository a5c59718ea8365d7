//! Groups of things that are counted one after another, and places in them.

use std::fmt;

/// What a group is counted by. The order is that in which places name them.
#[derive(Debug, Clone, Copy, PartialEq, Eq, PartialOrd, Ord)]
pub enum Axis {
    /// One of 25 lanes, x + 5y.
    Lane,
    /// A lane's x.
    X,
    /// A lane's y.
    Y,
    /// A stage of the parities: 0 to 3.
    Stage,
    /// A pair of bytes.
    Pair,
    /// A halfword of a lane, lowest first.
    Halfword,
    /// A part of a pointer: 16, 16 and 32 bits, lowest first.
    Limb,
    /// The low or the high 32 bits.
    Word,
    /// A byte of a lane or of the address, lowest first.
    Byte,
}

impl Axis {
    const fn name(self) -> &'static str {
        match self {
            Self::Lane => "lane",
            Self::X => "x",
            Self::Y => "y",
            Self::Stage => "stage",
            Self::Pair => "pair",
            Self::Halfword => "halfword",
            Self::Limb => "limb",
            Self::Word => "word",
            Self::Byte => "byte",
        }
    }
}

/// The axes of a group with their lengths, the slowest first.
pub type Axes = &'static [(Axis, usize)];

/// The axes of a state: its columns are counted by lane x + 5y.
pub const LANES: Axes = &[(Axis::Y, 5), (Axis::X, 5), (Axis::Byte, 8)];

/// Makes a thing of a group from where it is in it.
pub type Make<T> = fn(&[usize]) -> T;

/// A group: as many things as its axes span.
#[derive(Debug)]
pub struct Group<T: 'static> {
    /// Its name.
    pub name: &'static str,
    /// How its things are counted.
    pub axes: Axes,
    /// What it holds, in words.
    pub says: &'static str,
    pub(super) make: T,
}

impl Group<()> {
    /// A group of columns, which stand for themselves.
    pub(super) const fn columns(name: &'static str, axes: Axes, says: &'static str) -> Self {
        let make = ();
        Self { name, axes, says, make }
    }
}

impl<T> Group<T> {
    /// How many things it has.
    pub fn size(&self) -> usize {
        self.axes.iter().map(|&(_, length)| length).product()
    }
}

/// A place in a group.
#[derive(Debug, Clone, PartialEq, Eq)]
pub struct Place {
    /// The group's name.
    pub group: &'static str,
    /// What the group holds, in words.
    pub says: &'static str,
    /// Where in the group, by the order of [`Axis`].
    pub at: Vec<(Axis, usize)>,
}

impl Place {
    /// The numbers alone.
    pub fn indexes(&self) -> Vec<usize> {
        self.at.iter().map(|&(_, index)| index).collect()
    }

    /// The place in words: `x 1, y 2, byte 3`; nothing in a group of one.
    pub fn words(&self) -> String {
        let parts: Vec<String> = self
            .at
            .iter()
            .map(|(axis, index)| format!("{} {index}", axis.name()))
            .collect();
        parts.join(", ")
    }
}

/// The name as in `THETA[1][2][3]`.
impl fmt::Display for Place {
    fn fmt(&self, f: &mut fmt::Formatter<'_>) -> fmt::Result {
        f.write_str(self.group)?;
        self.at.iter().try_for_each(|(_, index)| write!(f, "[{index}]"))
    }
}

/// The place at an index of groups that follow each other, and what makes the thing that is there.
pub fn find<T>(groups: &'static [Group<T>], index: usize) -> Option<(&'static T, Place)> {
    let mut rest = index;
    for group in groups {
        if rest < group.size() {
            let at = split(group.axes, rest);
            return Some((
                &group.make,
                Place {
                    group: group.name,
                    says: group.says,
                    at,
                },
            ));
        }
        rest -= group.size();
    }
    None
}

/// The place at an index of groups that follow each other, and the thing that is there.
pub fn made<T>(groups: &'static [Group<Make<T>>], index: usize) -> Option<(Place, T)> {
    let (make, place) = find(groups, index)?;
    let thing = make(&place.indexes());
    Some((place, thing))
}

fn split(axes: Axes, mut rest: usize) -> Vec<(Axis, usize)> {
    let mut at = Vec::new();
    for &(axis, length) in axes.iter().rev() {
        at.push((axis, rest % length));
        rest /= length;
    }
    at.sort();
    at
}
