//! Apertures and macros.

use super::{Known, Shape, Writer};
use crate::generator::random::Random;
use crate::generator::text;
use crate::macros::{self, Macro};
use crate::number::ONE;
use crate::templates;

impl Writer {
    /// A number that is not taken: often the next ones, now and then any.
    pub fn new_number(&mut self) -> i64 {
        loop {
            let number = match self.random.below(30) {
                0 => 2_147_483_647,
                1 => self.random.between(10, 2_147_483_647),
                _ => 10 + self.taken.len() as i64 + self.random.between(0, 2),
            };
            if !self.taken.contains(&number) {
                return number;
            }
        }
    }

    pub fn add(&mut self, number: i64, shape: Shape) {
        self.taken.insert(number);
        self.apertures.push(Known { number, shape });
    }

    pub fn define(&mut self) {
        let number = self.new_number();
        if !self.macros.is_empty() && self.random.percent(40) {
            return self.define_by_macro(number);
        }
        let template = self.random.pick(&["C", "C", "R", "O", "P"]);
        let mut parameters = match template {
            "C" if self.random.percent(10) => vec![0],
            "C" => vec![text::size(&mut self.random)],
            "P" => vec![text::size(&mut self.random), self.random.between(3, 12) * ONE],
            _ => vec![text::size(&mut self.random), text::size(&mut self.random)],
        };
        if self.random.percent(25) {
            if template == "P" {
                parameters.push(self.random.between(-400, 400) * ONE / 2);
            }
            if template != "P" || self.random.percent(50) {
                parameters.push(text::size(&mut self.random));
            }
        }
        self.write_definition(number, template, &parameters);
        let shape = match (template, parameters.len()) {
            ("C", 1) => Shape::Pen,
            ("R", 2) => Shape::Rectangle,
            _ => Shape::Other,
        };
        self.add(number, shape);
    }

    pub fn write_definition(&mut self, number: i64, template: &str, parameters: &[i64]) {
        let mut text = format!("ADD{}{template}", text::aperture(&mut self.random, number));
        for (index, parameter) in parameters.iter().enumerate() {
            text += if index == 0 { "," } else { "X" };
            text += &text::decimal(&mut self.random, *parameter);
        }
        self.extended(&text);
    }

    /// Tries some parameters; without any that the macro takes, nothing is written.
    fn define_by_macro(&mut self, number: i64) {
        let index = self.random.below(self.macros.len());
        for _ in 0..4 {
            let count = if self.random.percent(5) { 64 } else { self.random.below(7) };
            let parameters: Vec<i64> =
                (0..count).map(|_| self.random.between(-8, 60) * ONE / 4).collect();
            if macros::work_out(&self.macros[index], &parameters).is_ok() {
                let name = String::from_utf8_lossy(&self.macros[index].name).into_owned();
                self.write_definition(number, &name, &parameters);
                return self.add(number, Shape::Other);
            }
        }
    }

    /// A pen, made if there is none, and selected.
    pub fn take_pen(&mut self) {
        if self.aperture.is_some_and(|known| known.shape == Shape::Pen) {
            return;
        }
        let pens: Vec<Known> =
            self.apertures.iter().copied().filter(|known| known.shape == Shape::Pen).collect();
        let pen = if pens.is_empty() { self.new_pen() } else { self.random.pick(&pens) };
        self.take(pen);
    }

    fn new_pen(&mut self) -> Known {
        let number = self.new_number();
        self.write_definition(number, "C", &[ONE / 2]);
        self.add(number, Shape::Pen);
        Known { number, shape: Shape::Pen }
    }

    pub fn take(&mut self, known: Known) {
        let number = text::aperture(&mut self.random, known.number);
        let code = if self.is_old() { self.random.pick(&["", "G54"]) } else { "" };
        self.word(&format!("{code}D{number}"));
        self.aperture = Some(known);
    }

    pub fn select(&mut self) {
        if !self.apertures.is_empty() {
            let known = self.random.pick(&self.apertures);
            self.take(known);
        }
    }

    pub fn define_macro(&mut self) {
        let name = text::name(&mut self.random);
        let taken = self.macros.iter().any(|known| known.name == name.as_bytes());
        if taken || templates::is_standard(name.as_bytes()) {
            return;
        }
        let mut text = format!("AM{name}*");
        for _ in 0..=self.random.below(4) {
            text += &self.block();
            text += self.random.pick(&["*", "*", "*\n", "*\r\n"]);
        }
        self.write_macro(&text);
    }

    /// The text from `AM` on, its last `*` included.
    pub fn write_macro(&mut self, text: &str) {
        self.write_waiting_code();
        self.file.push(b'%');
        self.file.extend(text.bytes());
        self.file.push(b'%');
        self.end_line();
        let is_good = |made: &Macro| !made.has_number_out_of_range && !made.is_too_deep;
        self.macros.extend(macros::parse(text.as_bytes()).filter(is_good));
    }

    pub fn block(&mut self) -> String {
        let random = &mut self.random;
        match random.below(6) {
            0 => {
                let comment = text::string(random, 10);
                format!("0{}", text::with_breaks(random, &comment))
            }
            1 => format!("${}={}", text::variable(random), text::expression(random, 3)),
            2 => text::expression_list(random),
            _ => {
                let primitive = self.primitive();
                text::with_breaks(&mut self.random, &primitive)
            }
        }
    }

    /// A primitive that may well keep its rule.
    fn primitive(&mut self) -> String {
        let random = &mut self.random;
        let exposure = random.pick(&["0", "1", "1", "1.0", "2-1", "$1/$1", "(1)"]);
        let size = size_text(random);
        let mut free = || text::expression(random, 2);
        match free().len() % 6 {
            0 => format!("1,{exposure},{size},{},{}", free(), free()),
            1 => format!(
                "20,{exposure},{size},{},{},{},{},{}",
                free(),
                free(),
                free(),
                free(),
                free()
            ),
            2 => format!("21,{exposure},{size},{size},{},{},{}", free(), free(), free()),
            3 => {
                let (x, y) = (free(), free());
                format!("4,{exposure},2,{x},{y},{},{},{x},{y},{}", free(), free(), free())
            }
            4 => format!("5,{exposure},6,{},{},{size},{}", free(), free(), free()),
            _ => format!("7,{},{},{size}+{size},{size},{size}/8,{}", free(), free(), free()),
        }
    }
}

fn size_text(random: &mut Random) -> String {
    match random.below(4) {
        0 => format!("${}", random.between(1, 3)),
        1 => String::from("2x0.25"),
        _ => {
            let size = random.between(1, 40) * ONE / 8;
            text::unsigned_decimal(random, size)
        }
    }
}
