//! The placement list of a component layer: request [4] of document 02.

use std::collections::{HashMap, HashSet};
use std::rc::Rc;

use crate::command::{self, Attribute, Command};
use crate::rules::read;
use crate::scan::{Refusal, Scanner};
use crate::sheet::{Item, Kind, Point, Room, Sheet};
use crate::terms::Terms;

/// Attributes by name; the value of one without a comma is empty.
type Dictionary = HashMap<Vec<u8>, Vec<u8>>;

/// The list, or a refusal of the reading; 34; 26, 27 and 28 at the place of the first item at fault;
/// 17 when the list is longer than the output.
pub fn placement(file: &[u8], terms: Terms, most_bytes: u64) -> Result<Vec<u8>, Refusal> {
    let sheet = read(file, terms, Room::UNLIMITED)?;
    let attributes = Attributes::of(file, terms)?;
    if !attributes.is_component_layer {
        return Err(Refusal::new(34, 0));
    }
    let list = Parts::of(&sheet, &attributes)?.list();
    if list.len() as u64 > most_bytes {
        return Err(Refusal::new(17, 0));
    }
    Ok(list)
}

/// What the attributes of an accepted file say.
#[derive(Default)]
struct Attributes {
    is_component_layer: bool,
    /// The `.AperFunction` of each AD, by aperture number: its first field.
    functions: HashMap<i64, Vec<u8>>,
    /// The object attributes at each operation, by its place.
    objects: HashMap<usize, Rc<Dictionary>>,
}

impl Attributes {
    fn of(file: &[u8], terms: Terms) -> Result<Attributes, Refusal> {
        let mut attributes = Attributes::default();
        let (mut of_apertures, mut of_objects) = (Dictionary::new(), Rc::new(Dictionary::new()));
        let mut scanner = Scanner::new(file, terms)?;
        loop {
            let raw = scanner.next()?;
            let at_place = |number| Refusal::new(number, raw.place);
            match command::parse(&raw, terms.edition).map_err(at_place)? {
                Command::FileAttribute(Attribute { name: b".FileFunction", value }) => {
                    let function = value.map(|value| field(value, 0));
                    attributes.is_component_layer = function == Some(b"Component");
                }
                Command::ApertureAttribute(attribute) => set(&mut of_apertures, &attribute),
                Command::ObjectAttribute(attribute) => {
                    set(Rc::make_mut(&mut of_objects), &attribute);
                }
                Command::DeleteAttribute(Some(name)) => {
                    of_apertures.remove(name);
                    Rc::make_mut(&mut of_objects).remove(name);
                }
                Command::DeleteAttribute(None) => {
                    of_apertures.clear();
                    of_objects = Rc::new(Dictionary::new());
                }
                Command::Define { number, .. } => {
                    if let Some(function) = of_apertures.get(&b".AperFunction"[..]) {
                        attributes.functions.insert(number.value(), field(function, 0).to_vec());
                    }
                }
                Command::Operation(_) => {
                    attributes.objects.insert(raw.place, of_objects.clone());
                }
                Command::End => return Ok(attributes),
                _ => {}
            }
        }
    }

    fn role(&self, item: &Item) -> Option<Role> {
        let function = self.functions.get(&item.aperture)?;
        match (item.kind, &function[..]) {
            (Kind::Flash, b"ComponentMain") => Some(Role::Main),
            (Kind::Flash, b"ComponentPin") => Some(Role::Pin),
            (Kind::Line | Kind::Cw | Kind::Ccw, b"ComponentOutline") => Some(Role::Outline),
            _ => None,
        }
    }

    /// The value of an object attribute at the item's place, if it is held there.
    fn value(&self, item: &Item, name: &str) -> Option<&[u8]> {
        self.objects.get(&item.place)?.get(name.as_bytes()).map(Vec::as_slice)
    }

    /// Its first field; "missing text is empty".
    fn text(&self, item: &Item, name: &str) -> Vec<u8> {
        self.value(item, name).map_or(Vec::new(), |value| field(value, 0).to_vec())
    }
}

fn set(dictionary: &mut Dictionary, attribute: &Attribute) {
    dictionary.insert(attribute.name.to_vec(), attribute.value.unwrap_or_default().to_vec());
}

/// A field of a value, empty where there is none.
fn field(value: &[u8], index: usize) -> &[u8] {
    value.split(|byte| *byte == b',').nth(index).unwrap_or_default()
}

#[derive(Clone, Copy, PartialEq, Eq)]
enum Role {
    Main,
    Pin,
    Outline,
}

struct Main {
    designator: Vec<u8>,
    at: Point,
    /// Rotation, value, footprint and mount type.
    texts: [Vec<u8>; 4],
}

struct Pin {
    designator: Vec<u8>,
    number: Vec<u8>,
    at: Point,
}

/// Outline items that are "consecutive and meeting".
struct Run {
    start: Point,
    last: Item,
}

#[derive(Default)]
struct Parts {
    mains: Vec<Main>,
    designators: HashSet<Vec<u8>>,
    pins: Vec<Pin>,
    run: Option<Run>,
}

impl Parts {
    /// Takes every item of the expansion: "first item at fault deciding, lowest number first".
    fn of(sheet: &Sheet, attributes: &Attributes) -> Result<Parts, Refusal> {
        let mut parts = Parts::default();
        let mut taken = Ok(());
        sheet.each_item(&mut |item| {
            taken = parts.take(&item, attributes);
            taken.is_ok()
        });
        taken?;
        parts.end_run()?;
        Ok(parts)
    }

    fn take(&mut self, item: &Item, attributes: &Attributes) -> Result<(), Refusal> {
        let role = attributes.role(item);
        let joins = role == Some(Role::Outline)
            && self.run.as_ref().is_some_and(|run| run.last.end == item.start);
        if !joins {
            self.end_run()?;
        }
        let without = |name| attributes.value(item, name).ok_or(Refusal::new(26, item.place));
        match role {
            Some(Role::Main) => {
                let designator = field(without(".C")?, 0).to_vec();
                if !self.designators.insert(designator.clone()) {
                    return Err(Refusal::new(27, item.place));
                }
                let names = [".CRot", ".CVal", ".CFtp", ".CMnt"];
                let texts = names.map(|name| attributes.text(item, name));
                self.mains.push(Main { designator, at: item.end, texts });
            }
            Some(Role::Pin) => {
                let value = without(".P")?;
                let (designator, number) = (field(value, 0).to_vec(), field(value, 1).to_vec());
                self.pins.push(Pin { designator, number, at: item.end });
            }
            Some(Role::Outline) => {
                without(".C")?;
                let start = self.run.as_ref().map_or(item.start, |run| run.start);
                self.run = Some(Run { start, last: *item });
            }
            None => {}
        }
        Ok(())
    }

    /// "28, at its last item, when an outline is not closed".
    fn end_run(&mut self) -> Result<(), Refusal> {
        match self.run.take() {
            Some(run) if run.last.end != run.start => Err(Refusal::new(28, run.last.place)),
            _ => Ok(()),
        }
    }

    /// Each main and then its pins, "in file order, tab-parted, one record a line, a pin's opening
    /// with a tab"; "a pin whose designator has no main is left out".
    fn list(&self) -> Vec<u8> {
        let mut pins: HashMap<&[u8], Vec<&Pin>> = HashMap::new();
        for pin in &self.pins {
            pins.entry(&pin.designator).or_default().push(pin);
        }
        let mut list = Vec::new();
        for main in &self.mains {
            let (x, y) = (main.at.x.to_string(), main.at.y.to_string());
            let fields = [&main.designator[..], x.as_bytes(), y.as_bytes()];
            let texts = main.texts.iter().map(Vec::as_slice);
            let fields: Vec<&[u8]> = fields.into_iter().chain(texts).collect();
            list.extend(fields.join(&b'\t'));
            list.push(b'\n');
            for pin in pins.get(&main.designator[..]).into_iter().flatten() {
                list.push(b'\t');
                list.extend(&pin.number);
                list.extend(format!("\t{}\t{}\n", pin.at.x, pin.at.y).bytes());
            }
        }
        list
    }
}

#[cfg(test)]
mod tests {
    use super::*;

    const HEAD: &str = "%TF.FileFunction,Component,L1,Top*%%FSLAX36Y36*%%MOMM*%\
        %TA.AperFunction,ComponentMain*%%ADD10C,1*%%TA.AperFunction,ComponentOutline,Body*%\
        %ADD11C,1*%%TA.AperFunction,ComponentPin*%%ADD12C,0*%%TD*%G01*";

    fn listed(text: &str) -> Result<String, u32> {
        let file = format!("{HEAD}{text}M02*");
        match placement(file.as_bytes(), Terms::PLAIN, u64::MAX) {
            Ok(list) => Ok(String::from_utf8_lossy(&list).replace('\t', "|").replace('\n', "/")),
            Err(refusal) => Err(refusal.number),
        }
    }

    #[test]
    fn pins_follow_their_mains() {
        let text =
            "%TO.P,B,1*%D12*X1Y1D03*%TO.C,A*%D10*X2Y2D03*%TO.CVal,4\\u002C7,x*%%TO.C,B*%X3Y3D03*\
            %TO.P,A*%D12*X4Y4D03*%TO.P,C,1*%X5Y5D03*";
        let list = "A|2|2||||/||4|4/B|3|3||4\\u002C7||/|1|1|1/";
        assert_eq!(listed(text).as_deref(), Ok(list));
        assert_eq!(listed("D10*X1Y1D03*"), Err(26));
        assert_eq!(listed("%TO.C,A*%D10*X1Y1D03*X1Y1D03*"), Err(27));
    }

    #[test]
    fn outlines_close() {
        let outline = |points: &str| listed(&format!("%TO.C*%D11*X0Y0D02*{points}"));
        assert_eq!(outline("X1D01*Y1D01*X0Y0D01*").as_deref(), Ok(""));
        assert_eq!(outline("X1D01*Y1D01*"), Err(28));
        // Another item between its parts, and a move.
        assert_eq!(outline("X1D01*D10*D03*D11*X0D01*"), Err(28));
        assert_eq!(outline("X1D01*X1Y0D02*X0D01*").as_deref(), Ok(""));
        // An open outline decides before a fault of the item behind it.
        assert_eq!(outline("X1D01*%TD*%D10*D03*"), Err(28));
    }
}
