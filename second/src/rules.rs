//! The reading: document 01, "State" and the table of numbers.
//!
//! Commands are taken in file order; within one command the rules stand in the order of their
//! numbers, so that the lowest decides; the later numbers of document 02 stand where it says.

use std::collections::{HashMap, HashSet};

use crate::arc::{is_nonsensical, quadrant_centre};
use crate::command::{self, Action, Code, Command, Mode, Operation, Quadrant, Unit};
use crate::macros::{self, Macro};
use crate::number::{Coordinate, Format, Number, DIGITS_BEFORE_FS, LARGEST, ONE};
use crate::scan::{Refusal, Scanner};
use crate::sheet::{
    Block, Body, Definition, Grid, Item, Kind, Placing, Point, Room, Shape, Sheet, Source, TURN,
};
use crate::state::{Aperture, Contour, Graphics, Open, Region};
use crate::templates;
use crate::terms::{Edition, Terms};

/// 16: "past 10^12 items".
const MOST_ITEMS: u128 = 1_000_000_000_000;

/// 15: a flash making a block's height 9, or a ninth open AB.
const TALLEST: u32 = 8;
const MOST_OPEN_BLOCKS: usize = 8;

/// SR: "n digits alone and 1 to 9,999".
const MOST_STEPS: u64 = 9_999;

/// The reading of a file with the room lent: a sheet, or the first fault.
pub fn read(file: &[u8], terms: Terms, room: Room) -> Result<Sheet, Refusal> {
    let mut scanner = Scanner::new(file, terms)?;
    let mut reading = Reading::new(terms.edition, room);
    loop {
        let raw = scanner.next()?;
        let at_place = |number| Refusal::new(number, raw.place);
        let command = command::parse(&raw, terms.edition).map_err(at_place)?;
        let is_end = command == Command::End;
        reading.step(raw.place, command).map_err(at_place)?;
        if is_end {
            scanner.tail()?;
            return Ok(reading.sheet());
        }
    }
}

struct Reading {
    edition: Edition,
    room: Room,
    used: Room,
    format: Option<Format>,
    incremental: bool,
    /// MO's.
    unit: Option<Unit>,
    /// That of the first G70 or G71, "where no MO does".
    code_unit: Option<Unit>,
    /// Unset before any G75 in the newer edition (decision 83); "G74 as the default" in the old.
    quadrant: Option<Quadrant>,
    graphics: Graphics,
    region: Option<Region>,
    open: Vec<Open>,
    top: Body,
    blocks: Vec<Block>,
    apertures: HashMap<i64, Aperture>,
    macros: HashMap<Vec<u8>, Macro>,
    definitions: Vec<Definition>,
    rounded: u64,
    file_attributes: HashSet<Vec<u8>>,
}

/// The numbers in the order in which they are tested within one command, where it is not their own.
fn rank(number: u32) -> (u32, u32) {
    match number {
        30 => (4, 1),
        29 => (11, 1),
        31 => (12, 1),
        number => (number, 0),
    }
}

/// The number, unless the rule is kept.
fn require(kept: bool, number: u32) -> Result<(), u32> {
    if kept {
        Ok(())
    } else {
        Err(number)
    }
}

impl Reading {
    fn new(edition: Edition, room: Room) -> Reading {
        Reading {
            edition,
            room,
            used: Room::NONE,
            format: None,
            incremental: false,
            unit: None,
            code_unit: None,
            quadrant: (edition == Edition::Old).then_some(Quadrant::Single),
            graphics: Graphics::at_start(),
            region: None,
            open: Vec::new(),
            top: Body::default(),
            blocks: Vec::new(),
            apertures: HashMap::new(),
            macros: HashMap::new(),
            definitions: Vec::new(),
            rounded: 0,
            file_attributes: HashSet::new(),
        }
    }

    /// The sheet after M02, at which a unit is given.
    fn sheet(self) -> Sheet {
        Sheet {
            unit: self.unit.or(self.code_unit).expect("M02 without a unit is 6"),
            body: self.top,
            blocks: self.blocks,
            apertures: self.definitions,
            used: self.used,
            rounded: self.rounded,
        }
    }

    // ------------------------------------------------------------ one command

    /// 5, 6 and 7, then the further rules of the command in rising order and what it does.
    fn step(&mut self, place: usize, command: Command) -> Result<(), u32> {
        if let Command::Operation(Operation { code: Some(code), .. }) = command {
            return self.step_after(code, place, command);
        }
        require(!command.has_number_out_of_range(self.most_digits()), 5)?;
        require(!self.has_point_out_of_range(&command), 5)?;
        require(self.has_header_for(&command), 6)?;
        require(self.is_allowed_here(&command), 7)?;
        self.rounded += command.rounded();
        match command {
            Command::Comment | Command::Pause | Command::End => Ok(()),
            Command::Code(code) => self.take_code(code),
            Command::Select(number) => self.select(number),
            Command::Operation(operation) => match operation.action {
                Action::Draw => self.draw(place, &operation),
                Action::Move => self.go(&operation),
                Action::Flash => self.flash(place, &operation),
            },
            Command::Format { format, incremental } => {
                self.format = Some(format);
                self.incremental = incremental;
                Ok(())
            }
            Command::Unit(unit) => {
                self.unit = Some(unit);
                Ok(())
            }
            Command::Define { number, template, parameters } => {
                self.define(number, template, &parameters)
            }
            Command::Macro(definition) => self.define_macro(definition),
            Command::BlockOpen(number) => self.open_block(number),
            Command::BlockClose => {
                self.close_block();
                Ok(())
            }
            Command::RepeatOpen { nx, ny, dx, dy } => self.open_repeat(nx, ny, dx, dy),
            Command::RepeatClose => {
                self.close_repeat();
                Ok(())
            }
            Command::Polarity { clear } => {
                self.graphics.clear = clear;
                Ok(())
            }
            Command::Mirror(mirror) => {
                self.graphics.mirror = mirror;
                Ok(())
            }
            Command::Rotate(angle) => {
                self.graphics.rotation = angle.value();
                Ok(())
            }
            Command::Scale(scale) => {
                // "LS above 0, else 10."
                require(scale.value() > 0, 10)?;
                self.graphics.scale = scale.value();
                Ok(())
            }
            Command::FileAttribute(attribute) => {
                // "file attribute name set twice" (decision 106).
                require(self.file_attributes.insert(attribute.name.to_vec()), 19)
            }
            Command::ApertureAttribute(_)
            | Command::ObjectAttribute(_)
            | Command::DeleteAttribute(_) => Ok(()),
        }
    }

    /// An operation with a code before it: "of the faults of the code and of the operation, the
    /// operation judged in the state behind the code, the one tested first decides".
    fn step_after(&mut self, code: Code, place: usize, command: Command) -> Result<(), u32> {
        let Command::Operation(operation) = command else {
            return Ok(());
        };
        let allowed = require(self.is_allowed_here(&Command::Code(code)), 7);
        let taken = self.take_code(code);
        let done = self.step(place, Command::Operation(Operation { code: None, ..operation }));
        let faults = [allowed, taken, done].into_iter().filter_map(Result::err);
        faults.min_by_key(|number| rank(*number)).map_or(Ok(()), Err)
    }

    /// What a G code does, whether it may stand here or not; 13 for G37.
    fn take_code(&mut self, code: Code) -> Result<(), u32> {
        match code {
            Code::Mode(mode) => self.graphics.mode = Some(mode),
            Code::Quadrant(quadrant) => self.quadrant = Some(quadrant),
            Code::RegionBegin => self.region = Some(Region::default()),
            Code::RegionEnd => {
                let ended = self.end_contour();
                self.region = None;
                return ended;
            }
            Code::Unit(unit) => self.code_unit = self.code_unit.or(Some(unit)),
            Code::Notation { incremental } => self.incremental = incremental,
        }
        Ok(())
    }

    /// "1 to n+6 digits as written (12 before FS)"; in the old edition n+m.
    fn most_digits(&self) -> usize {
        self.format.map_or(DIGITS_BEFORE_FS, Format::digits)
    }

    /// "5 also for a point of 10^12 millionths or more in size", of coordinates that are written;
    /// the newer edition's are below that.
    fn has_point_out_of_range(&self, command: &Command) -> bool {
        let (Command::Operation(operation), Some(_)) = (command, self.format) else {
            return false;
        };
        let from = self.graphics.point.unwrap_or_default();
        let is_out = |given: Option<Coordinate>, from: i64| {
            given.is_some_and(|given| self.coordinate(given, from).abs() >= LARGEST)
        };
        is_out(operation.x, from.x) || is_out(operation.y, from.y)
    }

    /// A written coordinate; an incremental one is added to the point's.
    fn coordinate(&self, given: Coordinate, from: i64) -> i64 {
        self.length(given) + if self.incremental { from } else { 0 }
    }

    /// A coordinate's size as FS says, which stands at every operation that is not 6.
    fn length(&self, given: Coordinate) -> i64 {
        self.format.map_or(0, |format| given.value(format))
    }

    /// 6: "FS or MO given twice, or missing at an operation or at M02".
    fn has_header_for(&self, command: &Command) -> bool {
        match command {
            Command::Format { .. } => self.format.is_none(),
            Command::Unit(_) => self.unit.is_none(),
            Command::Operation(_) | Command::End => {
                self.format.is_some() && self.unit.or(self.code_unit).is_some()
            }
            _ => true,
        }
    }

    /// 7: "command not allowed here, or something open at M02" (decisions 48 to 57).
    fn is_allowed_here(&self, command: &Command) -> bool {
        if self.region.is_some() {
            return is_allowed_in_region(command);
        }
        match command {
            Command::Code(Code::RegionEnd) => false,
            Command::BlockClose => matches!(self.open.last(), Some(Open::Block { .. })),
            Command::RepeatClose => matches!(self.open.last(), Some(Open::Repeat { .. })),
            // "SR only at top level".
            Command::RepeatOpen { .. } | Command::End => self.open.is_empty(),
            _ => true,
        }
    }

    // ------------------------------------------------------------ apertures and macros

    /// 8 for an unknown aperture; "An open block's number is taken, but selecting it is 8."
    fn select(&mut self, number: Number) -> Result<(), u32> {
        let number = number.value();
        match self.apertures.get(&number) {
            None | Some(Aperture::OpenBlock) => Err(8),
            Some(aperture) => {
                self.graphics.aperture = Some((number, *aperture));
                Ok(())
            }
        }
    }

    /// AD: 8, then 9 and 10, then 17 (decisions 60 and 79).
    fn define(&mut self, number: Number, name: &[u8], parameters: &[Number]) -> Result<(), u32> {
        let number = number.value();
        let parameters: Vec<i64> = parameters.iter().map(|parameter| parameter.value()).collect();
        require(!self.apertures.contains_key(&number), 8)?;
        let shape = if templates::is_standard(name) {
            require(templates::keeps_its_rule(name, &parameters), 10)?;
            Shape::Standard(name[0], parameters.clone())
        } else {
            let definition = self.macros.get(name).ok_or(8u32)?;
            Shape::Primitives(macros::work_out(definition, &parameters)?)
        };
        let numbers = shape.numbers().len() as u64;
        self.use_room(Room { apertures: 1, numbers, ..Room::NONE })?;
        let aperture = if templates::can_draw(name, &parameters) {
            Aperture::Pen
        } else if templates::is_solid_rectangle(name, &parameters) {
            Aperture::Rectangle
        } else {
            Aperture::Shape
        };
        self.apertures.insert(number, aperture);
        self.definitions.push(Definition { number, shape });
        Ok(())
    }

    /// AM: 8, then 15, then 17; never 9 or 10 (decisions 58 and 78).
    fn define_macro(&mut self, definition: Macro) -> Result<(), u32> {
        let name = &definition.name;
        require(!templates::is_standard(name) && !self.macros.contains_key(name), 8)?;
        require(!definition.is_too_deep, 15)?;
        self.use_room(Room { macros: 1, ..Room::NONE })?;
        self.macros.insert(definition.name.clone(), definition);
        Ok(())
    }

    // ------------------------------------------------------------ operations

    /// The point the operation names: "a missing X or Y keeps the current one", which is 11 while
    /// the point is unset (decision 81); "incremental coordinates count from (0, 0)" then.
    fn target(&self, operation: &Operation) -> Result<Point, u32> {
        let current = self.graphics.point;
        let part = |given: Option<Coordinate>, kept: fn(Point) -> i64| match given {
            Some(given) => Ok(self.coordinate(given, current.map_or(0, kept))),
            None => current.map(kept).ok_or(11u32),
        };
        Ok(Point::new(part(operation.x, |p| p.x)?, part(operation.y, |p| p.y)?))
    }

    /// D01: 11, then 29, 12 or 31, then 16, then 17 (decision 84).
    fn draw(&mut self, place: usize, operation: &Operation) -> Result<(), u32> {
        let start = self.graphics.point.ok_or(11u32)?;
        let end = self.target(operation)?;
        let mode = self.graphics.mode.ok_or(11u32)?;
        let number = self.pen(mode)?;
        let offset = self.offset(mode, operation)?;
        let starts_contour = self.region.as_ref().is_some_and(|region| region.contour.is_none());
        // Document 02, [7]: "29 at that D01, tested after 11 and before 12"; not in the old edition.
        let has_own_move = self.region.as_ref().is_none_or(|region| region.moved);
        require(!starts_contour || has_own_move || self.edition == Edition::Old, 29)?;
        let centre = match offset {
            Some(offset) => self.centre(start, end, offset, mode)?,
            None => None,
        };

        // "each contour (at its first D01)" is an entry and an item of its own (decision 93).
        let new = if starts_contour { 2 } else { 1 };
        require(self.has_items_left(new), 16)?;
        self.use_room(Room { entries: new, ..Room::NONE })?;

        if starts_contour {
            self.begin_contour(place, start);
        }
        let mode = if centre.is_some() { mode } else { Mode::Linear };
        let centre = centre.unwrap_or_default();
        let item = Item { start, end, centre, ..self.new_item(place, number, mode) };
        self.body().push(Source::Item(item), 1);
        self.count_edge();
        self.graphics.point = Some(end);
        Ok(())
    }

    /// I and J: "present in linear mode or absent in circular mode, circular D01 before any G75" are
    /// 11, and in single quadrant mode a sign.
    fn offset(&self, mode: Mode, operation: &Operation) -> Result<Option<Point>, u32> {
        let (i, j) = match (mode, operation.offset) {
            (Mode::Linear, None) => return Ok(None),
            (Mode::Linear, Some(_)) | (_, None) => return Err(11),
            (_, Some(offset)) => offset,
        };
        let quadrant = self.quadrant.ok_or(11u32)?;
        require(quadrant == Quadrant::Multi || !(i.has_sign || j.has_sign), 11)?;
        Ok(Some(Point::new(self.length(i), self.length(j))))
    }

    /// The centre of an arc, or 12; in single quadrant mode none where "start equal to end gives a
    /// line of length zero", or 31.
    fn centre(
        &self,
        start: Point,
        end: Point,
        offset: Point,
        mode: Mode,
    ) -> Result<Option<Point>, u32> {
        if self.quadrant == Some(Quadrant::Multi) {
            require(!is_nonsensical(start, end, offset), 12)?;
            return Ok(Some(start.plus(offset)));
        }
        if start == end {
            return Ok(None);
        }
        quadrant_centre(start, end, offset, mode == Mode::Clockwise).map(Some).ok_or(31)
    }

    /// The aperture that draws: in a region 0, else a circle without hole, or 11 (decision 82); in
    /// the old edition a solid rectangle draws lines.
    fn pen(&self, mode: Mode) -> Result<i64, u32> {
        if self.region.is_some() {
            return Ok(0);
        }
        let draws_lines = self.edition == Edition::Old && mode == Mode::Linear;
        match self.graphics.aperture {
            Some((number, Aperture::Pen)) => Ok(number),
            Some((number, Aperture::Rectangle)) if draws_lines => Ok(number),
            _ => Err(11),
        }
    }

    /// A line, arc or edge without its points. Edges have "angle 0, scale 1, no flip".
    fn new_item(&self, place: usize, aperture: i64, mode: Mode) -> Item {
        let in_region = self.region.is_some();
        let kind = match (mode, in_region) {
            (Mode::Linear, false) => Kind::Line,
            (Mode::Clockwise, false) => Kind::Cw,
            (Mode::Counterclockwise, false) => Kind::Ccw,
            (Mode::Linear, true) => Kind::EdgeLine,
            (Mode::Clockwise, true) => Kind::EdgeCw,
            (Mode::Counterclockwise, true) => Kind::EdgeCcw,
        };
        if in_region {
            return self.plain_item(kind, place);
        }
        let (flip, angle) = self.graphics.orientation();
        let scale = self.graphics.scale;
        Item { aperture, flip, angle, scale, ..self.plain_item(kind, place) }
    }

    /// An item of the current polarity and nothing else (decision 94).
    fn plain_item(&self, kind: Kind, place: usize) -> Item {
        Item {
            kind,
            aperture: 0,
            clear: self.graphics.clear,
            flip: false,
            angle: 0,
            scale: ONE,
            start: Point::default(),
            end: Point::default(),
            centre: Point::default(),
            count: 0,
            place,
            outer: place,
        }
    }

    /// D02: 11, then 13 where it ends a contour (decision 90).
    fn go(&mut self, operation: &Operation) -> Result<(), u32> {
        let target = self.target(operation)?;
        self.end_contour()?;
        if let Some(region) = &mut self.region {
            region.moved = true;
        }
        self.graphics.point = Some(target);
        Ok(())
    }

    /// D03: 11, then 14 and 15 for a block, then 16, then 17.
    fn flash(&mut self, place: usize, operation: &Operation) -> Result<(), u32> {
        let at = self.target(operation)?;
        let (number, aperture) = self.graphics.aperture.ok_or(11u32)?;
        match aperture {
            Aperture::Block(block) => self.flash_block(place, block, at)?,
            _ => {
                require(self.has_items_left(1), 16)?;
                self.use_room(Room { entries: 1, ..Room::NONE })?;
                let (flip, angle) = self.graphics.orientation();
                let scale = self.graphics.scale;
                let plain = self.plain_item(Kind::Flash, place);
                let item = Item { aperture: number, flip, angle, scale, end: at, ..plain };
                self.body().push(Source::Item(item), 1);
            }
        }
        self.graphics.point = Some(at);
        Ok(())
    }

    /// 14: "block flashed at a scale other than 1 or an angle not a multiple of 90 degrees", an
    /// empty one too (decision 96). 15: a flash making the innermost open block's height 9
    /// (decision 97). An empty block uses an entry and adds nothing to the items.
    fn flash_block(&mut self, place: usize, block: usize, at: Point) -> Result<(), u32> {
        let (flip, angle) = self.graphics.orientation();
        require(self.graphics.scale == ONE && angle % (TURN / 4) == 0, 14)?;
        let height = self.blocks[block].height + 1;
        let is_in_block = matches!(self.open.last(), Some(Open::Block { .. }));
        require(!is_in_block || height <= TALLEST, 15)?;
        let items = self.blocks[block].body.total;
        require(self.has_items_left(items), 16)?;
        self.use_room(Room { entries: 1, ..Room::NONE })?;

        if let Some(Open::Block { height: open, .. }) = self.open.last_mut() {
            *open = height.max(*open);
        }
        let placing = Placing { at, flip, angle, clear: self.graphics.clear, place };
        self.body().push(Source::Block(block, placing), items);
        Ok(())
    }

    // ------------------------------------------------------------ regions

    /// "The first D01 starts a contour at the current point", which a D02 since G36 has set.
    fn begin_contour(&mut self, place: usize, start: Point) {
        let item = Item { start, ..self.plain_item(Kind::Contour, place) };
        let body = self.body();
        let entry = body.entries.len();
        body.push(Source::Item(item), 1);
        if let Some(region) = &mut self.region {
            region.contour = Some(Contour { start, entry });
        }
    }

    fn count_edge(&mut self) {
        let Some(Region { contour: Some(contour), .. }) = &self.region else {
            return;
        };
        let entry = contour.entry;
        if let Source::Item(item) = &mut self.body().entries[entry].source {
            item.count += 1;
        }
    }

    /// "D02 or G37 ends it; its last point must equal its first, else 13. No D01, no contour."
    fn end_contour(&mut self) -> Result<(), u32> {
        let point = self.graphics.point;
        let Some(region) = &mut self.region else {
            return Ok(());
        };
        match region.contour.take() {
            Some(contour) => require(point == Some(contour.start), 13),
            None => Ok(()),
        }
    }

    // ------------------------------------------------------------ blocks and repeats

    /// AB opening: 8, then 15 for "a ninth open AB" (decision 98), then 17.
    fn open_block(&mut self, number: Number) -> Result<(), u32> {
        let number = number.value();
        require(!self.apertures.contains_key(&number), 8)?;
        let is_block = |open: &&Open| matches!(open, Open::Block { .. });
        require(self.open.iter().filter(is_block).count() < MOST_OPEN_BLOCKS, 15)?;
        self.use_room(Room { entries: 1, apertures: 1, ..Room::NONE })?;
        self.apertures.insert(number, Aperture::OpenBlock);
        self.definitions.push(Definition { number, shape: Shape::Block });
        self.open.push(Open::Block { number, body: Body::default(), height: 1 });
        self.graphics.point = None;
        Ok(())
    }

    /// The block becomes an aperture; only the point is unset (decision 88).
    fn close_block(&mut self) {
        if let Some(Open::Block { number, body, height }) = self.open.pop() {
            self.apertures.insert(number, Aperture::Block(self.blocks.len()));
            self.blocks.push(Block { body, height });
        }
        self.graphics.point = None;
    }

    /// SR opening: 10 for n and d out of their bounds (decision 44), then 17.
    fn open_repeat(&mut self, nx: u64, ny: u64, dx: Number, dy: Number) -> Result<(), u32> {
        let steps = 1..=MOST_STEPS;
        let (dx, dy) = (dx.value(), dy.value());
        require(steps.contains(&nx) && steps.contains(&ny) && dx >= 0 && dy >= 0, 10)?;
        self.use_room(Room { entries: 1, ..Room::NONE })?;
        let grid = Grid { nx, ny, dx, dy };
        self.open.push(Open::Repeat { grid, body: Body::default() });
        self.graphics.point = None;
        Ok(())
    }

    fn close_repeat(&mut self) {
        if let Some(Open::Repeat { grid, body }) = self.open.pop() {
            let items = grid.copies() * body.total;
            self.top.push(Source::Repeat(grid, body), items);
        }
        self.graphics.point = None;
    }

    /// Where new entries go: the innermost AB or SR, or the top level.
    fn body(&mut self) -> &mut Body {
        match self.open.last_mut() {
            Some(Open::Block { body, .. } | Open::Repeat { body, .. }) => body,
            None => &mut self.top,
        }
    }

    /// 16: "a D01 or D03 takes the open block or, SR copies counted, the sheet past 10^12 items";
    /// the innermost open thing decides (decision 99).
    fn has_items_left(&self, new: u64) -> bool {
        let top = u128::from(self.top.total);
        let new = u128::from(new);
        let after = match self.open.last() {
            Some(Open::Block { body, .. }) => u128::from(body.total) + new,
            Some(Open::Repeat { grid, body }) => {
                top + u128::from(grid.copies()) * (u128::from(body.total) + new)
            }
            None => top + new,
        };
        after <= MOST_ITEMS
    }

    /// 17: uses room, or finds it used up (decision 101).
    fn use_room(&mut self, need: Room) -> Result<(), u32> {
        let (used, room) = (&mut self.used, &self.room);
        let fits = need.entries <= room.entries - used.entries
            && need.apertures <= room.apertures - used.apertures
            && need.macros <= room.macros - used.macros
            && need.numbers <= room.numbers - used.numbers;
        require(fits, 17)?;
        used.entries += need.entries;
        used.apertures += need.apertures;
        used.macros += need.macros;
        used.numbers += need.numbers;
        Ok(())
    }
}

/// "In a region only G01, G02, G03, G75, G04, D01, D02, G37", and G74 like G75.
fn is_allowed_in_region(command: &Command) -> bool {
    match command {
        Command::Code(Code::Mode(_) | Code::Quadrant(_) | Code::RegionEnd) => true,
        Command::Comment => true,
        Command::Operation(operation) => operation.action != Action::Flash,
        _ => false,
    }
}

#[cfg(test)]
mod tests {
    use super::*;

    const HEAD: &str = "%FSLAX36Y36*%%MOMM*%%ADD10C,1*%D10*G01*";

    /// The file after the head is refused at the mark `|`.
    fn refused(text: &str, number: u32) {
        let place = HEAD.len() + text.find('|').expect("a mark");
        let file = format!("{HEAD}{}M02*", text.replace('|', ""));
        let refusal = read(file.as_bytes(), Terms::PLAIN, Room::UNLIMITED).err();
        assert_eq!(refusal, Some(Refusal::new(number, place)), "{text}");
    }

    fn accepted(text: &str) {
        let file = format!("{HEAD}{text}M02*");
        assert_eq!(read(file.as_bytes(), Terms::PLAIN, Room::UNLIMITED).err(), None, "{text}");
    }

    #[test]
    fn the_lowest_number_of_a_command_decides() {
        refused("G36*|D99999999999*", 5);
        refused("G36*|D99*", 7);
        refused("G36*|%MOMM*%", 6);
        refused("%ABD11*%|%SRX0Y0I0J0*%", 7);
        refused("|%ADD10C,-1*%", 8);
        refused("%AMM*1,0*%|%ADD11M,1X1X1*%", 10);
        refused("%AMM*99,1/0*%|%ADD11M*%", 9);
        refused("%AMM*99,1*1,1/0*%|%ADD11M*%", 10);
    }

    #[test]
    fn points_are_unset_by_blocks_and_repeats() {
        refused("X0Y0D02*%ABD11*%|X1D01*", 11);
        refused("X0Y0D02*%SRX1Y1I0J0*%%SR*%|X1D01*", 11);
        accepted("X0Y0D02*X1D01*");
    }

    #[test]
    fn contours_close_exactly() {
        accepted("G36*X0Y0D02*X1D01*X0D01*G37*");
        refused("G36*X0Y0D02*X1D01*|G37*", 13);
        refused("G36*X0Y0D02*X1D01*|D02*", 13);
        accepted("G36*G37*");
    }

    #[test]
    fn a_contour_begins_with_its_own_move() {
        refused("X0Y0D02*G36*|X1D01*X0D01*G37*", 29);
        refused("G36*X0Y0D02*G37*G36*|D01*G37*", 29);
        refused("G36*X0Y0D02*D01*G37*G36*|D01*G37*", 29);
        accepted("G36*X0Y0D02*D01*D02*D01*G37*");
        accepted("X0Y0D02*G36*D02*D01*G37*");
        // After 11 and before 12.
        refused("G36*|X1Y1D01*G37*", 11);
        refused("X0Y0D02*G75*G02*G36*|X1Y0D01*G37*", 11);
        refused("X0Y0D02*G75*G02*G36*|X1Y0I0J0D01*G37*", 29);
        refused("X0Y0D02*G75*G02*G36*D02*|X1Y0I0J0D01*G37*", 12);
    }

    /// The numbers of files of the old edition, 0 for an accepted one.
    fn old(text: &str) -> u32 {
        let terms = Terms { edition: Edition::Old, ..Terms::PLAIN };
        read(text.as_bytes(), terms, Room::UNLIMITED).map_or_else(|refusal| refusal.number, |_| 0)
    }

    #[test]
    fn the_old_edition_counts_from_the_last_point() {
        let terms = Terms { edition: Edition::Old, ..Terms::PLAIN };
        let file = "%FSTIX23Y23*%G70*%ADD10R,1X1*%G54D10*G1X1Y-01D2*X0001D1*G90Y2D1*M2*";
        let sheet = read(file.as_bytes(), terms, Room::UNLIMITED).expect("accepted");
        assert_eq!(sheet.unit, Unit::Inch);
        let points = [(10_000_000, -1_000_000), (10_010_000, -1_000_000), (10_010_000, 20_000_000)];
        let [first, second, third] = points.map(|(x, y)| Point::new(x, y));
        let ends = |k| sheet.item(k).map(|item| (item.kind, item.start, item.end));
        assert_eq!(ends(0), Some((Kind::Line, first, second)));
        assert_eq!(ends(1), Some((Kind::Line, second, third)));
    }

    #[test]
    fn the_old_edition_has_its_own_refusals() {
        const OLD_HEAD: &str = "%FSLAX66Y66*%%ADD10C,1*%%ADD11R,1X1*%D10*";
        let refused = |text: &str, number| {
            assert_eq!(old(&format!("{OLD_HEAD}{text}M02*")), number, "{text}");
        };
        refused("", 6);
        refused("G71*G91*X999999999999Y0D02*X1D02*", 5);
        refused("G71*G91*X999999999999Y0D02*X-1D02*", 0);
        refused("G71*X0Y0D02*G02X10Y10I10J0D01*", 0);
        refused("G71*X0Y0D02*G02X10Y10I+10J0D01*", 11);
        refused("G71*X0Y0D02*G02X10Y0I5J0D01*", 31);
        refused("G71*X0Y0D02*G75*G02X10Y0I0J0D01*", 12);
        refused("G71*D11*X0Y0D02*G01X10D01*", 0);
        refused("G71*D11*X0Y0D02*G02X10Y10I10J0D01*", 11);
        // The operation is judged behind its code, and the fault tested first decides.
        refused("G71*G01X0Y0D02*G36*X1D01*G37X0Y0D03*", 13);
        refused("G71*G01X0Y0D02*G36*X1D01*G37X0I1J0D01*", 11);
        refused("G71*G36X0Y0D03*", 7);
        refused("G71*G01X0Y0D02*G36*X1D01*X0D01*G37D03*", 0);
        refused("%IPPOS*%", 30);
    }

    #[test]
    fn a_block_of_height_eight_is_flashed_at_top_level_only() {
        let mut blocks = String::from("%ABD11*%D10*X0Y0D03*%AB*%");
        for number in 12..=18 {
            blocks += &format!("%ABD{number}*%D{}*X0Y0D03*%AB*%", number - 1);
        }
        accepted(&format!("{blocks}D18*X0Y0D03*"));
        accepted(&format!("{blocks}%SRX2Y2I0J0*%D18*X0Y0D03*%SR*%"));
        refused(&format!("{blocks}%ABD19*%D18*|X0Y0D03*%AB*%"), 15);
    }

    #[test]
    fn a_contour_needs_two_entries() {
        let file = format!("{HEAD}G36*X0Y0D02*D01*G37*M02*");
        let room = |entries| Room { entries, ..Room::UNLIMITED };
        let first = HEAD.len() + "G36*X0Y0D02*".len();
        assert_eq!(
            read(file.as_bytes(), Terms::PLAIN, room(1)).err(),
            Some(Refusal::new(17, first))
        );
        let sheet = read(file.as_bytes(), Terms::PLAIN, room(2)).expect("room enough");
        assert_eq!((sheet.used.entries, sheet.total()), (2, 2));
    }
}
