//! Why a call is refused.

use std::error::Error;
use std::fmt;

/// A refusal: its number is what the library answers, its text says what the number means. A refused call has altered nothing.
#[derive(Clone, Copy, Debug, PartialEq, Eq, PartialOrd, Ord, Hash)]
#[non_exhaustive]
pub enum Refusal {
    /// 1: the file is not 1 to 10 whole blocks.
    Length,
    /// 2: a block's word 126 or 127 is wrong.
    Sums,
    /// 3: anything else in the file's layout, the head's counts against the blocks included.
    Layout,
    /// 11: no pin, too many, or a list that isn't whole threes.
    PinList,
    /// 12: too many macros, or a list that isn't whole fours.
    MacroList,
    /// 13: a coordinate or a load is out of range.
    OutOfRange,
    /// 14: a macro's left is not below its right, or its bottom not below its top.
    FlatMacro,
    /// 15: two pins are at one place.
    PinTwice,
    /// 16: two macros' interiors meet; touching is allowed.
    MacrosOverlap,
    /// 17: a pin is in a macro's interior; on its boundary is allowed.
    PinInInterior,
    /// 18: a weight is not from 1 to 8.
    Weights,
    /// 21: too little space is lent. The calls of [`crate::Net`] lend enough, so they never say it.
    Space,
    /// 31: the list of bands is odd or empty, or a rate in it is above 1,000,000.
    Bands,
    /// 32: no band's limit reaches the metal.
    Reach,
    /// 33: the edge list isn't whole fours, has more than 1,535 edges, or a coordinate is out of range.
    EdgeList,
    /// 34: an edge has equal ends, or ends that are not clear of each other.
    EdgeNotClear,
    /// 35: the edges and the pins are not one tree, or a point with a single edge is no pin.
    NotATree,
    /// 36: more than 16 pins or 16 macros, of which distances on the grid are not given.
    GridSize,
    /// 37: a band's limit is not above the one before it, or its rate is below.
    BandOrder,
    /// 38: a resistance or a capacitance is not finite, or not above zero.
    Technology,
    /// 39: the driver is no pin.
    Driver,
    /// 40: a delay is not finite.
    DelayNotFinite,
    /// 41: more than 5 pins or 16 macros, of which no best tree is given.
    BestSize,
    /// Any other number: a library that is newer than this crate gave it.
    Unknown(i32),
}

impl Refusal {
    /// Every refusal that this crate knows, by rising number.
    pub const ALL: &'static [Refusal] = &[
        Refusal::Length,
        Refusal::Sums,
        Refusal::Layout,
        Refusal::PinList,
        Refusal::MacroList,
        Refusal::OutOfRange,
        Refusal::FlatMacro,
        Refusal::PinTwice,
        Refusal::MacrosOverlap,
        Refusal::PinInInterior,
        Refusal::Weights,
        Refusal::Space,
        Refusal::Bands,
        Refusal::Reach,
        Refusal::EdgeList,
        Refusal::EdgeNotClear,
        Refusal::NotATree,
        Refusal::GridSize,
        Refusal::BandOrder,
        Refusal::Technology,
        Refusal::Driver,
        Refusal::DelayNotFinite,
        Refusal::BestSize,
    ];

    /// The number and its meaning, as include/calzundi.h has them for C.
    const fn told(self) -> (i32, &'static str) {
        match self {
            Refusal::Length => (1, "the file is not 1 to 10 whole blocks"),
            Refusal::Sums => (2, "a block's word 126 or 127, its sums, is wrong"),
            Refusal::Layout => (3, "the layout is not a net file's"),
            Refusal::PinList => (
                11,
                "there is no pin, there are more than 128, or the list isn't whole threes",
            ),
            Refusal::MacroList => (
                12,
                "there are more than 128 macros, or the list isn't whole fours",
            ),
            Refusal::OutOfRange => (13, "a coordinate is not from -1000000 to 1000000, or a load not from 0 to 1000000"),
            Refusal::FlatMacro => (
                14,
                "a macro's left is not below its right, or its bottom not below its top",
            ),
            Refusal::PinTwice => (15, "two pins are at one place"),
            Refusal::MacrosOverlap => (16, "two macros' interiors meet"),
            Refusal::PinInInterior => (17, "a pin is in a macro's interior"),
            Refusal::Weights => (18, "a weight is not from 1 to 8"),
            Refusal::Space => (21, "too little space was lent"),
            Refusal::Bands => (
                31,
                "there is no band, the list isn't whole pairs, or a rate is above 1000000",
            ),
            Refusal::Reach => (32, "no band's limit reaches the metal"),
            Refusal::EdgeList => (
                33,
                "there are more than 1535 edges, the list isn't whole fours, or a coordinate is not from -1000000 to 1000000",
            ),
            Refusal::EdgeNotClear => (
                34,
                "an edge has equal ends, or ends that are not clear of each other",
            ),
            Refusal::NotATree => (
                35,
                "the edges and the pins are not one tree, or a point with a single edge is no pin",
            ),
            Refusal::GridSize => (36, "there are more than 16 pins or more than 16 macros"),
            Refusal::BandOrder => (
                37,
                "a band's limit is not above the one before it, or its rate is below",
            ),
            Refusal::Technology => (
                38,
                "a resistance or capacitance is not finite, or not above zero",
            ),
            Refusal::Driver => (39, "the driver is no pin"),
            Refusal::DelayNotFinite => (40, "a delay is not finite"),
            Refusal::BestSize => (41, "there are more than 5 pins or more than 16 macros"),
            Refusal::Unknown(number) => (number, "no refusal has this number"),
        }
    }

    /// The number, as the documents and the program `route` have it.
    pub const fn number(self) -> i32 {
        self.told().0
    }

    /// What the number means.
    pub const fn meaning(self) -> &'static str {
        self.told().1
    }

    /// The refusal of a number, if there is one.
    pub fn from_number(number: i32) -> Option<Refusal> {
        let mut all = Refusal::ALL.iter();
        all.find(|refusal| refusal.number() == number).copied()
    }

    /// The refusal that a library's answer is, which is no 0: one of [`Refusal::ALL`], or unknown.
    pub(crate) fn answered(number: i32) -> Refusal {
        Refusal::from_number(number).unwrap_or(Refusal::Unknown(number))
    }
}

/// `refused 15: two pins are at one place`.
impl fmt::Display for Refusal {
    fn fmt(&self, f: &mut fmt::Formatter) -> fmt::Result {
        let (number, meaning) = self.told();
        write!(f, "refused {number}: {meaning}")
    }
}

impl Error for Refusal {}
