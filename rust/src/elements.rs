//! What is read of an element.

use crate::names::Name;
use crate::raw::VIEW_NUMBERS;

/// Whether a file is 2D or 3D: the caller says it, for a session once and for all its calls.
#[derive(Clone, Copy, PartialEq, Eq, Hash, Debug)]
pub enum Dimension {
    /// A 2D file.
    Two = 2,
    /// A 3D file.
    Three = 3,
}

/// Makes the enum of the types, each with its number.
macro_rules! types {
    ($($(#[$doc:meta])* $name:ident = $number:literal,)*) => {
        /// The type of an element.
        #[derive(Clone, Copy, PartialEq, Eq, Hash, Debug)]
        pub enum Type {
            $($(#[$doc])* $name,)*
            /// Any other type, by its number: only its first two words are judged.
            Raw(u8),
        }

        impl Type {
            /// The type of a number.
            pub fn of(number: u8) -> Type {
                match number {
                    $($number => Type::$name,)*
                    _ => Type::Raw(number),
                }
            }

            /// Its number.
            pub fn number(self) -> u8 {
                match self {
                    $(Type::$name => $number,)*
                    Type::Raw(number) => number,
                }
            }
        }
    };
}

types! {
    /// A header with a name.
    LibraryCell = 1,
    /// A header with a name.
    Cell = 2,
    /// With two points.
    Line = 3,
    /// With points.
    LineString = 4,
    /// With points.
    Shape = 6,
    /// A header of texts.
    TextNode = 7,
    /// With points.
    Curve = 11,
    /// A header.
    ComplexChain = 12,
    /// A header.
    ComplexShape = 14,
    /// With two axes and an origin.
    Ellipse = 15,
    /// A part of an ellipse.
    Arc = 16,
    /// A text.
    Text = 17,
    /// A header, in 3D files alone.
    Surface = 18,
    /// A header, in 3D files alone.
    Solid = 19,
    /// With points.
    BsplinePole = 21,
}

/// The range of an element: x, y, z of its low and of its high corner, in the coordinates of its points. No file is refused for its
/// ranges: whether they hold their points [`in_range`](crate::in_range) and [`ranges`](crate::ranges) say.
#[derive(Clone, Copy, PartialEq, Eq, Hash, Debug, Default)]
pub struct Bounds {
    /// The low corner.
    pub low: [i32; 3],
    /// The high corner.
    pub high: [i32; 3],
}

/// Words 14 to 17 of the known types other than 1.
#[derive(Clone, Copy, PartialEq, Eq, Hash, Debug, Default)]
pub struct DisplayHeader {
    /// Word 14.
    pub graphic_group: u16,
    /// Word 15: where the linkages begin, counted from word 16.
    pub attribute_index: u16,
    /// Word 16; bit 11 says that there are attributes.
    pub properties: u16,
    /// 0 to 7.
    pub style: u8,
    /// 0 to 31.
    pub weight: u8,
    /// An index of the colour table.
    pub colour: u8,
}

/// What an element says of itself, and where it stands.
#[derive(Clone, Copy, PartialEq, Eq, Hash, Debug)]
pub struct View {
    /// Where it starts.
    pub place: usize,
    /// 0 to 63.
    pub level: u8,
    /// The component bit C.
    pub component: bool,
    /// The type.
    pub kind: Type,
    /// Whether it is marked deleted.
    pub deleted: bool,
    /// Its own words, without its components.
    pub size: usize,
    /// The number of headers above it.
    pub depth: usize,
    /// The direct header's place; none at the top.
    pub header: Option<usize>,
    /// Its range; none in an element of fewer than 14 words.
    pub bounds: Option<Bounds>,
    /// Words 14 to 17 of the known types other than 1.
    pub display: Option<DisplayHeader>,
    /// The number of points of types 4, 6, 11 and 21; a line has two and does not say so.
    pub points: Option<usize>,
    /// The name of types 1 and 2.
    pub name: Option<Name>,
    /// The total of a header: all words of its extent but its first 19.
    pub total: Option<usize>,
    /// The count of direct components that types 7, 12, 14, 18 and 19 have.
    pub components: Option<usize>,
}

impl View {
    /// The view that 32 numbers of [`raw::view`](crate::raw::view) or [`raw::views`](crate::raw::views) give.
    pub fn of(numbers: &[i64; VIEW_NUMBERS]) -> View {
        let [level, component, kind, deleted, size, depth, ..] = *numbers;
        let corner = |first: usize| [0, 1, 2].map(|axis| numbers[first + axis] as i32);
        let has = |flag: usize| numbers[flag] == 1;
        let place = |flag: usize| has(flag).then(|| numbers[flag + 1] as usize);
        View {
            place: numbers[31] as usize,
            level: level as u8,
            component: component == 1,
            kind: Type::of(kind as u8),
            deleted: deleted == 1,
            size: size as usize,
            depth: depth as usize,
            header: place(6),
            bounds: has(8).then(|| Bounds { low: corner(9), high: corner(12) }),
            display: has(15).then(|| DisplayHeader {
                graphic_group: numbers[16] as u16,
                attribute_index: numbers[17] as u16,
                properties: numbers[18] as u16,
                style: numbers[19] as u8,
                weight: numbers[20] as u8,
                colour: numbers[21] as u8,
            }),
            points: place(22),
            name: has(24).then(|| Name { first: numbers[25] as u16, second: numbers[26] as u16 }),
            total: place(27),
            components: place(29),
        }
    }
}

/// A point; z is 0 in a 2D file.
#[derive(Clone, Copy, PartialEq, Eq, Hash, Debug, Default)]
#[allow(missing_docs)]
pub struct Point {
    pub x: i32,
    pub y: i32,
    pub z: i32,
}

impl Point {
    /// The point of two or three coordinates, which have 32 bits each.
    pub(crate) fn of(numbers: &[i64]) -> Point {
        let [x, y, z] = [0, 1, 2].map(|axis| numbers.get(axis).map_or(0, |&number| number as i32));
        Point { x, y, z }
    }
}

/// How a text, an ellipse or an arc is turned, in numbers as they are stored.
#[derive(Clone, Copy, PartialEq, Eq, Hash, Debug)]
pub enum Turn {
    /// In a 2D file: the rotation.
    Flat(u32),
    /// In a 3D file: the four numbers of a quaternion, in their stored order.
    Solid([u32; 4]),
}

impl Turn {
    /// The turn of four numbers, which have 32 bits each.
    pub(crate) fn of(numbers: [i64; 4], dimension: Dimension) -> Turn {
        match dimension {
            Dimension::Two => Turn::Flat(numbers[0] as u32),
            Dimension::Three => Turn::Solid(numbers.map(|long| long as u32)),
        }
    }
}

/// The two kinds of linkages.
#[derive(Clone, Copy, PartialEq, Eq, Hash, Debug)]
pub enum LinkageKind {
    /// With an id of its own.
    User,
    /// Four words, its id 0.
    Other,
}

/// An attribute linkage.
#[derive(Clone, Copy, PartialEq, Eq, Hash, Debug)]
pub struct Linkage {
    /// Its kind.
    pub kind: LinkageKind,
    /// Where it starts in the file.
    pub place: usize,
    /// Its words.
    pub size: usize,
    /// The id of a user linkage.
    pub id: u16,
}
