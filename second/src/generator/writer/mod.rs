//! Files that keep the rules: a writer that knows the state its commands leave.

mod apertures;
mod film;
mod operations;
mod structure;

use std::collections::HashSet;

use super::random::Random;
use super::{letters, text};
use crate::macros::Macro;
use crate::md5;
use crate::number::{Format, ONE};
use crate::sheet::Point;
use crate::signature::digest_before;
use crate::terms::{Edition, Letters, Terms};

const MOST_ITEMS: u128 = 1_000_000_000_000;

#[derive(Clone, Copy, PartialEq, Eq)]
pub enum Shape {
    Pen,
    /// Without hole.
    Rectangle,
    Other,
    Block {
        height: u32,
        items: u128,
    },
}

#[derive(Clone, Copy)]
pub struct Known {
    pub number: i64,
    pub shape: Shape,
}

#[derive(Clone, Copy)]
pub enum Open {
    Block { number: i64, height: u32, items: u128 },
    Repeat { copies: u128, items: u128 },
}

/// What a step may do.
#[derive(Clone, Copy, PartialEq, Eq)]
enum Deed {
    Line,
    Arc,
    Flash,
    Move,
    Region,
    BlockOpen,
    RepeatOpen,
    Close,
    Define,
    Macro,
    Transform,
    Attribute,
    Comment,
    Select,
}

const DEEDS: [Deed; 14] = [
    Deed::Line,
    Deed::Arc,
    Deed::Flash,
    Deed::Move,
    Deed::Region,
    Deed::BlockOpen,
    Deed::RepeatOpen,
    Deed::Close,
    Deed::Define,
    Deed::Macro,
    Deed::Transform,
    Deed::Attribute,
    Deed::Comment,
    Deed::Select,
];

pub struct Writer {
    pub random: Random,
    pub terms: Terms,
    pub file: Vec<u8>,
    /// What stands after each command; empty for a mixture.
    line_end: &'static str,
    mixed_line_ends: bool,
    weights: [usize; DEEDS.len()],
    pub format: Format,
    /// Written coordinates are added to the point's.
    pub incremental: bool,
    /// A G code that is to stand before the next operation, or nothing.
    waiting_code: String,
    /// I and J of a single quadrant arc with a sign, which is 11.
    pub signed_offsets: bool,
    pub lacks_format: bool,
    pub lacks_unit: bool,
    pub point: Option<Point>,
    pub mode: &'static str,
    pub g75: bool,
    pub aperture: Option<Known>,
    pub apertures: Vec<Known>,
    taken: HashSet<i64>,
    pub macros: Vec<Macro>,
    file_attributes: HashSet<String>,
    pub open: Vec<Open>,
    top_items: u128,
    scale: i64,
    angle: i64,
}

impl Writer {
    pub fn new(mut random: Random, terms: Terms) -> Writer {
        let line_end = random.pick(&["", "\n", "\n", "\r\n"]);
        let mixed_line_ends = random.percent(15);
        let weights = std::array::from_fn(|_| random.pick(&[0, 1, 1, 2, 4, 8]));
        let integers = random.between(1, 6) as usize;
        let mut format = Format { integers, decimals: 6, trailing: false };
        let mut incremental = false;
        if terms.edition == Edition::Old {
            format = film::format(&mut random);
            incremental = random.percent(40);
        }
        Writer {
            random,
            terms,
            file: Vec::new(),
            line_end,
            mixed_line_ends,
            weights,
            format,
            incremental,
            waiting_code: String::new(),
            signed_offsets: false,
            lacks_format: true,
            lacks_unit: true,
            point: None,
            mode: "",
            g75: false,
            aperture: None,
            apertures: Vec::new(),
            taken: HashSet::new(),
            macros: Vec::new(),
            file_attributes: HashSet::new(),
            open: Vec::new(),
            top_items: 0,
            scale: ONE,
            angle: 0,
        }
    }

    /// A whole file that keeps the rules.
    pub fn whole(random: Random, terms: Terms) -> Vec<u8> {
        let mut writer = Writer::new(random, terms);
        let most = writer.random.pick(&[10, 40, 40, 120]);
        let steps = writer.random.below(most);
        writer.steps(steps);
        writer.finish();
        writer.file
    }

    /// A file of blocks within blocks, each flashing some before it, and a repeat of the last.
    pub fn panel(random: Random, terms: Terms) -> Vec<u8> {
        let mut writer = Writer::new(random, terms);
        for _ in 0..writer.random.between(1, 8) {
            writer.open_block();
            for _ in 0..writer.random.below(6) {
                let deed = writer.random.pick(&[
                    Deed::Line,
                    Deed::Arc,
                    Deed::Region,
                    Deed::Flash,
                    Deed::Transform,
                ]);
                writer.act(deed);
            }
            for _ in 0..writer.random.below(4) {
                writer.flash_block();
            }
            writer.close();
        }
        for _ in 0..writer.random.below(3) {
            if writer.random.percent(60) {
                writer.open_repeat();
            }
            for _ in 0..writer.random.between(1, 2) {
                writer.flash_block();
            }
            let steps = writer.random.below(3);
            writer.steps(steps);
            writer.close();
        }
        writer.finish();
        writer.file
    }

    /// Closes what is open and ends the file.
    pub fn finish(&mut self) {
        while !self.open.is_empty() {
            self.close();
        }
        self.header();
        if self.random.percent(5) {
            self.sign();
        }
        let end = self.spelled("M02");
        self.word(&end);
    }

    /// A signature, now and then a wrong one.
    fn sign(&mut self) {
        let mut digest = md5::hex(&digest_before(&self.file, self.file.len()));
        match self.random.below(5) {
            0 => digest = digest.to_uppercase(),
            1 => digest.replace_range(31.., "0"),
            2 => digest.push('0'),
            _ => {}
        }
        self.extended(&format!("TF.MD5,{digest}"));
    }

    // ------------------------------------------------------------ bytes

    pub fn word(&mut self, text: &str) {
        self.write_waiting_code();
        self.write_word(text);
    }

    pub fn write_word(&mut self, text: &str) {
        self.file.extend(text.bytes());
        self.file.push(b'*');
        self.end_line();
    }

    pub fn extended(&mut self, text: &str) {
        self.write_waiting_code();
        self.file.push(b'%');
        self.file.extend(text.bytes());
        self.file.push(b'*');
        if self.random.percent(5) {
            let inside = self.random.pick(&["\n", "\r\n", "\r\r\n\n"]);
            self.file.extend(inside.bytes());
        }
        self.file.push(b'%');
        self.end_line();
    }

    fn end_line(&mut self) {
        let mut end = self.line_end;
        if self.mixed_line_ends {
            end = self.random.pick(&["", "\n", "\r\n", "\r", "\n\n", "\n\r"]);
        }
        self.file.extend(end.bytes());
    }

    // ------------------------------------------------------------ steps

    pub fn steps(&mut self, count: usize) {
        for _ in 0..count {
            self.step();
        }
    }

    fn step(&mut self) {
        let sum: usize = self.weights.iter().sum();
        let mut left = self.random.below(sum.max(1));
        for (deed, weight) in DEEDS.into_iter().zip(self.weights) {
            if left < weight {
                return self.act(deed);
            }
            left -= weight;
        }
    }

    fn act(&mut self, deed: Deed) {
        if self.is_old() && self.random.percent(6) {
            self.old_idle();
        }
        match deed {
            Deed::Line => self.line(),
            Deed::Arc => self.arc(),
            Deed::Flash => self.flash(),
            Deed::Move => self.go(),
            Deed::Region => self.region(),
            Deed::BlockOpen => self.open_block(),
            Deed::RepeatOpen => self.open_repeat(),
            Deed::Close => self.close(),
            Deed::Define => self.define(),
            Deed::Macro => self.define_macro(),
            Deed::Transform => self.transform(),
            Deed::Attribute => self.attribute(),
            Deed::Comment => self.comment(),
            Deed::Select => self.select(),
        }
    }

    /// FS and MO, where they still lack.
    pub fn header(&mut self) {
        let unit_first = self.random.percent(50);
        if unit_first {
            self.unit();
        }
        if self.lacks_format {
            self.lacks_format = false;
            let text = self.format_text();
            self.extended(&text);
        }
        self.unit();
    }

    fn unit(&mut self) {
        if self.lacks_unit {
            self.lacks_unit = false;
            if self.is_old() && self.random.percent(30) {
                let unit = self.random.pick(&["G70", "G71"]);
                return self.word(unit);
            }
            let unit = self.random.pick(&["MOMM", "MOMM", "MOIN"]);
            self.extended(unit);
        }
    }

    /// A field or a comment's text, with letters under the new rule.
    pub fn field(&mut self, most: usize) -> String {
        let mut text = text::string(&mut self.random, most);
        if self.terms.letters == Letters::New {
            for _ in 0..self.random.below(3) {
                text.push(letters::letter(&mut self.random));
                text += &text::string(&mut self.random, 2);
            }
        }
        text
    }

    fn comment(&mut self) {
        let text = self.field(12);
        let code = match self.is_old() && !text.starts_with(|c: char| c.is_ascii_digit()) {
            true => self.spelled("G04"),
            false => String::from("G04"),
        };
        self.word(&format!("{code}{text}"));
    }
}
