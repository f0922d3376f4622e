//! A refusal in plain words, with what to do.

use crate::faults::Fault;
use crate::files::{self, How, Taken};
use crate::output;
use crate::parts;
use dgn::{Dimension, Number, Refusal, FILE_BYTES};
use std::ffi::OsStr;

/// That a file fits both dimensions.
pub const BOTH_FIT: &str = "it does not say whether it is 2D or 3D and fits both; read as 2D, --3d reads it as 3D";

/// That a file says another dimension than the one that was asked for.
pub fn says(told: Dimension) -> String {
    format!("it says of itself that it is {}", files::shown(told))
}

/// A refused file: all that its line is made of.
pub struct Refused<'r> {
    /// How many bytes it has.
    pub length: usize,
    /// The dimension that it was taken as.
    pub taken: &'r Taken,
    /// The refusal.
    pub refusal: Refusal,
    /// Where the fault is.
    pub fault: &'r Fault,
}

impl Refused<'_> {
    /// What the refusal means.
    pub fn meaning(&self) -> &'static str {
        let beneath = self.fault.beneath;
        match self.refusal.number {
            Number::Call if self.length > FILE_BYTES => "the file has more than 1,048,576 bytes",
            Number::Call => "the file has an odd number of bytes",
            Number::NoEnd => "the file ends where its end marker or another element is due",
            Number::Cut if beneath => "an element is cut off by the end of the cell or other header that it stands in",
            Number::Cut => "an element is cut off by the end of the file",
            Number::Reserved => "a bit that has to be zero is set",
            Number::Place if beneath => "an element in a cell or other header is not marked as belonging to one",
            Number::Place => "an element that is marked as belonging to a cell or other header stands in none",
            Number::Kind => "an element of this type may not stand here or cannot be read",
            Number::Short => "an element is too short for what it holds, or its number of points is not 2 to 101",
            Number::Total => "a length does not fit the element or what is around it, or is above 65,535 words",
            Number::Count => "an element counts other components than it has",
            Number::Deep => "cells stand in each other deeper than 8",
            Number::Linkage => "the attributes of an element are damaged",
            Number::Name => "the name of a cell has a letter that no part code can have",
            Number::Field => {
                "an enter-data field of a text is not within its characters, or its justification is wrong"
            }
            Number::Float => "a float of an ellipse or an arc is no number",
            other => other.text(),
        }
    }

    /// What to do about it.
    pub fn advice(&self) -> &'static str {
        // a file that says its dimension, or was tried both ways, need not be tried the other way
        let asked = self.taken.how == How::Asked;
        match self.refusal.number {
            Number::Call if self.length > FILE_BYTES => "ask its maker for several smaller files",
            Number::Call => "is it a DGN file? then fetch it again",
            _ if asked => "try it without --2d or --3d; still refused: return it to its maker",
            Number::NoEnd => "its end is missing: fetch it again, or have its maker save it anew",
            _ if self.refusal.place == 0 => "is it a DGN file of version 7? then fetch it again; still refused: return it",
            Number::Cut if self.fault.beneath => {
                "fetch it again; still refused: a part was changed and its length was not, its maker saves that part anew"
            }
            Number::Cut => "its end is missing: fetch it again, or have its maker save it anew",
            Number::Reserved => "it is damaged from here on: fetch it again, or return it to its maker",
            Number::Place => "return it to its maker: the part before has a wrong length, or the element a wrong mark",
            Number::Kind => "ask its maker for a file without B-splines and rasters",
            Number::Short => "return it to its maker, who saves this element anew; a line string of more than 101 points is to be split",
            Number::Total => "fetch it again; still refused: its maker divides a part that is too large, or saves it anew",
            Number::Count => "a component was lost or added: return it to its maker",
            Number::Deep => "have its maker dissolve the innermost cells",
            Number::Linkage => "return it to its maker",
            Number::Name => "its maker renames the cell: up to six of A-Z, 0-9, $, . and space",
            Number::Field => "its maker types the text anew",
            Number::Float => "its maker draws the ellipse or the arc anew",
            _ => "",
        }
    }

    /// What it means and what to do.
    pub fn both(&self) -> String {
        format!("{}; to do: {}", self.meaning(), self.advice())
    }

    /// The line on it.
    pub fn line(&self, name: &OsStr) -> String {
        let Refusal { number, place, .. } = self.refusal;
        let numbers = format!("{} {}", number as u8, number.name());
        let (taken, numbers) = match number {
            // the length is wrong for both, and no element is at fault
            Number::Call => (String::new(), numbers),
            _ => (format!(" as {}", self.dimension()), format!("{numbers}, word {place}, byte {}", 2 * place)),
        };
        let at = match &self.fault.near {
            Some(near) => format!("{} part {} (@{}): ", near.relation(), parts::shown(&near.code), near.place),
            None => String::new(),
        };
        let (name, meaning, advice) = (output::name(name), self.meaning(), self.advice());
        format!("{name}: refused{taken}: {at}{meaning} ({numbers}). To do: {advice}.")
    }

    fn dimension(&self) -> &'static str {
        match (self.taken.how, self.taken.dimension) {
            (How::Neither, Dimension::Two) => "2D (and as 3D)",
            (How::Neither, Dimension::Three) => "3D (and as 2D)",
            (_, dimension) => files::shown(dimension),
        }
    }
}
