//! Component layers: mains, pins and outlines, now and then with something missing or doubled.

use super::random::Random;
use super::{damage, letters};
use crate::terms::{Letters, Terms};

pub fn components(seed: u64, index: u64, terms: Terms) -> Vec<u8> {
    let random = Random::new(seed, index);
    let mut layer = Layer { random, terms, text: String::new(), made: 0, blocks: 0, is_top: true };
    layer.write();
    let mut file = layer.text.into_bytes();
    if layer.random.percent(5) {
        damage::damage(&mut layer.random, &mut file);
    }
    file
}

struct Layer {
    random: Random,
    terms: Terms,
    text: String,
    /// Components so far.
    made: usize,
    blocks: usize,
    is_top: bool,
}

const MAIN: &str = "D10*";
const OUTLINE: &str = "D11*";
const PINS: &[&str] = &["D12*", "D13*"];

impl Layer {
    fn put(&mut self, text: &str) {
        self.text += text;
        self.text += self.random.pick(&["\n", "", "\r\n"]);
    }

    fn write(&mut self) {
        let function = self.random.pick(&[
            "Component,L1,Top", "Component,L1,Top", "Component,L4,Bot", "Component", "Component,",
        ]);
        let other = self
            .random
            .pick(&["Copper,L1,Top", "component,L1", "Components", "", " Component", ",Component"]);
        let function = if self.random.percent(4) { other } else { function };
        let function = format!("%TF.FileFunction,{function}*%");
        let first = self.random.percent(80);
        if first {
            self.put(&function);
        }
        self.put("%FSLAX46Y46*%");
        self.put("%MOMM*%");
        self.apertures();
        self.put("G01*");
        self.put("G75*");
        for _ in 0..self.random.below(6) {
            self.part();
        }
        if !first && self.random.percent(90) {
            self.put(&function);
        }
        self.put("M02*");
    }

    /// D10 for mains, D11 for outlines, D12 and D13 for pins, D14 for anything; now and then a
    /// function is another one.
    fn apertures(&mut self) {
        let functions = [
            ("ComponentMain", "%ADD10C,0.3*%"),
            ("ComponentOutline,Body", "%ADD11C,0.1*%"),
            ("ComponentPin", "%ADD12P,0.36X4X0.0*%"),
            ("ComponentPin", "%ADD13C,0*%"),
            ("Profile", "%ADD14C,1*%"),
        ];
        for (function, definition) in functions {
            let function = match self.random.below(60) {
                0 => self.random.pick(&["ComponentMains", "", "ComponentPin", "componentMain"]),
                1 => self.random.pick(&["ComponentMain,x", "ComponentOutline", "ComponentPin,,"]),
                _ => function,
            };
            self.put(&format!("%TA.AperFunction,{function}*%"));
            self.put(definition);
        }
        let delete = self.random.pick(&["%TD*%", "%TD.AperFunction*%", ""]);
        self.put(delete);
    }

    /// A component in the open, in a block, or in copies; or what is none.
    fn part(&mut self) {
        match self.random.below(13) {
            0..=4 => self.component(true),
            5 => self.split_outline(),
            6..=7 => self.block(),
            8 => {
                let steps = self.random.pick(&["X1Y1", "X1Y1", "X2Y1", "X1Y3"]);
                self.put(&format!("%SR{steps}I10J10*%"));
                let has_main = steps == "X1Y1" || self.random.percent(10);
                self.is_top = false;
                self.component(has_main);
                self.put("%SR*%");
                self.is_top = true;
            }
            9 => self.stray(),
            _ => {
                let idle = self.random.pick(&["%LPC*%", "%LPD*%", "%LS2*%", "%LS1*%", "G04 x*"]);
                self.put(idle);
            }
        }
    }

    fn block(&mut self) {
        self.blocks += 1;
        let number = 20 + self.blocks;
        self.put(&format!("%ABD{number}*%"));
        self.is_top = false;
        self.component(true);
        if self.random.percent(30) {
            self.component(true);
        }
        self.put("%AB*%");
        self.is_top = true;
        let turned = self.random.pick(&["", "%LR90*%", "%LMX*%", "%LMY*%%LR270*%"]);
        self.put("%LS1*%");
        self.put(turned);
        self.put(&format!("D{number}*"));
        let flashes = self.random.pick(&[0, 1, 1, 1, 1, 1, 1, 1, 1, 2]);
        for _ in 0..flashes {
            let point = self.point();
            self.put(&format!("{point}D03*"));
        }
        self.put("%LR0*%%LMN*%");
    }

    fn component(&mut self, has_main: bool) {
        self.made += 1;
        let again = self.random.percent(3);
        let nth = if again { self.random.below(self.made + 1) } else { self.made };
        let designator = match self.random.below(40) {
            0 => String::new(),
            1 => format!("\"R,{nth}\""),
            2 => format!("R\\u002C{nth}"),
            3 if self.terms.letters == Letters::New => {
                format!("{}{nth}", letters::letter(&mut self.random))
            }
            _ => format!("R{nth}"),
        };
        let pins_first = self.random.percent(20);
        if pins_first {
            self.pins(&designator);
        }
        self.object_attribute(".C", &designator, 2);
        for (name, value) in
            [(".CRot", "-90"), (".CVal", "4\\u002C7uF"), (".CFtp", "R_0805"), (".CMnt", "SMD")]
        {
            self.object_attribute(name, value, 25);
        }
        if has_main {
            self.put(MAIN);
            let point = self.point();
            self.put(&format!("{point}D03*"));
        }
        for _ in 0..self.random.below(3) {
            self.outline();
        }
        if !pins_first {
            self.pins(&designator);
        }
        let delete = self.random.pick(&["%TD*%", "%TD*%", "%TD.CVal*%", "%TD.P*%", ""]);
        self.put(delete);
    }

    /// Set in one of its ways, or left out at that chance.
    fn object_attribute(&mut self, name: &str, value: &str, missing: usize) {
        if self.random.percent(missing) {
            return;
        }
        let text = match self.random.below(16) {
            0 => format!("{name},{value},more,,x"),
            1 if name != ".C" => format!("{name},"),
            2 if name != ".C" => String::from(name),
            3 => format!("{name},\"{value}\""),
            4 if self.terms.letters == Letters::New => {
                format!("{name},{value}{}", letters::letter(&mut self.random))
            }
            _ => format!("{name},{value}"),
        };
        self.put(&format!("%TO{text}*%"));
    }

    fn pins(&mut self, designator: &str) {
        for number in 0..self.random.below(4) {
            let text = match self.random.below(12) {
                0 => String::from(designator),
                1 => format!("{designator},{number},VCC"),
                2 => format!("{designator},"),
                3 => format!("Q{number},{number}"),
                _ => format!("{designator},{number}"),
            };
            self.put(&format!("%TO.P,{text}*%"));
            let pin = self.random.pick(PINS);
            self.put(pin);
            let point = self.point();
            self.put(&format!("{point}D03*"));
        }
    }

    /// Lines and arcs from a corner round to it; now and then not quite, or with something between.
    fn outline(&mut self) {
        self.put(OUTLINE);
        let (x, y) = (self.random.between(-3, 3), self.random.between(-3, 3));
        self.put(&format!("X{x}Y{y}D02*"));
        if self.random.percent(15) {
            let circle = self.random.pick(&["G02*I1J0D01*G01*", "D01*", "G03*I0J5D01*G01*"]);
            return self.put(circle);
        }
        let corners = self.random.between(1, 3);
        for nth in 1..=corners {
            let (x, y) = (x + nth, y + nth * nth);
            match self.random.below(8) {
                0 => self.put(&format!("G02*X{x}Y{y}I0J7D01*G01*")),
                1 => self.put(&format!("G03*X{x}Y{y}I0J7D01*G01*")),
                _ => self.put(&format!("X{x}Y{y}D01*")),
            }
            self.between_parts(x, y);
        }
        if !self.random.percent(4) {
            self.put(&format!("X{x}Y{y}D01*"));
        }
    }

    /// An outline half in a block or in copies, half in the open, meeting or nearly.
    fn split_outline(&mut self) {
        self.put("%TO.C,half*%%LS1*%D11*");
        let (x, y) = (self.random.between(-9, 9) * 1000, self.random.between(-9, 9) * 1000);
        let off = i64::from(self.random.percent(15));
        if self.random.percent(50) {
            self.blocks += 1;
            let number = 20 + self.blocks;
            self.put(&format!("%ABD{number}*%X0Y0D02*X1000Y2000D01*%AB*%"));
            self.put(&format!("D{number}*X{x}Y{y}D03*D11*"));
            self.put(&format!("X{}Y{}D02*X{x}Y{y}D01*", x + 1000 + off, y + 2000));
        } else {
            let copies = self.random.between(1, 4);
            let steps = self.random.pick(&["I0.001J0", "I0.001J0.5", "I0.001001J0"]);
            self.put(&format!("%SRX{copies}Y1{steps}*%X{x}Y{y}D02*X{}D01*%SR*%", x + 1000));
            self.put(&format!("X{}Y{y}D02*X{x}D01*", x + 1000 * copies + off));
        }
    }

    /// What joins, and what parts.
    fn between_parts(&mut self, x: i64, y: i64) {
        let between = match self.random.below(60) {
            0 => format!("X{x}Y{y}D02*"),
            1 => format!("X{}Y{y}D02*", x + 1),
            2 => String::from("D14*D03*D11*"),
            3 => String::from("%TO.C,other*%"),
            4 => {
                self.blocks += 1;
                let number = 20 + self.blocks;
                format!("%ABD{number}*%%AB*%%LS1*%D{number}*X{x}Y{y}D03*D11*")
            }
            5 if self.is_top => format!("%SRX1Y1I0J0*%X{x}Y{y}D02*D01*%SR*%X{x}Y{y}D02*"),
            6 => String::from("G36*D02*D01*G37*"),
            7 => String::from("%TD.C*%"),
            _ => return,
        };
        self.put(&between);
    }

    /// Items that are neither main, pin nor outline.
    fn stray(&mut self) {
        let point = self.point();
        let stray = self.random.pick(&[
            ("D14*", "D03*"),
            ("D14*", "D02*X1Y1D01*"),
            ("D14*", "D02*G36*D02*D01*G37*"),
            (MAIN, "D02*X1Y1D01*"),
            (OUTLINE, "D03*"),
            (OUTLINE, "D02*G36*D02*D01*D01*G37*"),
            ("D13*", "D02*X1Y1D01*"),
        ]);
        self.put(stray.0);
        self.put(&format!("{point}{}", stray.1));
    }

    fn point(&mut self) -> String {
        let (x, y) = (self.random.between(-99, 99), self.random.between(-99, 99));
        format!("X{}Y{}", x * 1000, y * 1000)
    }
}
