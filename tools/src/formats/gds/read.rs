//! A net and its wires out of a stream: boxes are macros, paths are wires, texts are pins, each on its layer.

use std::collections::{BTreeMap, BTreeSet};
use std::fmt;

use calzundi::{Pin, Place, Weights};

use super::record::{from_real, kind, LOAD, WEIGHTS};
use super::{Asked, Layer};
use crate::formats::found::{box_of, counted, first_layers, Found, MOST_SHAPES};
use crate::line::quoted;
use crate::text::numbers;

/// What is wrong with a stream, and at which byte of it.
#[derive(Clone, Debug, PartialEq, Eq)]
pub struct BadOffset {
    pub offset: usize,
    pub wrong: String,
}

impl fmt::Display for BadOffset {
    fn fmt(&self, f: &mut fmt::Formatter) -> fmt::Result {
        write!(f, "offset {}: {}", self.offset, self.wrong)
    }
}

/// A file of this start is a stream: a record of six bytes, the header.
pub fn is_gds(bytes: &[u8]) -> bool {
    bytes.starts_with(&[0, 6, 0, 2])
}

/// The net and the wires of a stream.
pub fn read(bytes: &[u8], asked: &Asked) -> Result<Found, BadOffset> {
    let mut reader = Reader::new(asked);
    let mut at = 0;
    while !reader.ended {
        let record = record(bytes, at)?;
        let done = reader.take(&record);
        done.map_err(|wrong| BadOffset { offset: at, wrong })?;
        at += 4 + record.data.len();
    }
    let found = reader.found();
    found.map_err(|wrong| BadOffset { offset: at, wrong })
}

/// A record, whose bytes stand in the file.
struct Record<'a> {
    offset: usize,
    kind: u16,
    data: &'a [u8],
}

fn record(bytes: &[u8], at: usize) -> Result<Record<'_>, BadOffset> {
    let wrong = |wrong: &str| BadOffset {
        offset: at,
        wrong: wrong.into(),
    };
    let rest = bytes.get(at..).unwrap_or_default();
    let &[a, b, c, d, ..] = rest else {
        return Err(wrong("the file ends before its last record, ENDLIB"));
    };
    let length = usize::from(u16::from_be_bytes([a, b]));
    if length < 4 || !length.is_multiple_of(2) {
        let said = format!("a record has {length} bytes; it is an even number, 4 at the least");
        return Err(wrong(&said));
    }
    let data = rest.get(4..length);
    Ok(Record {
        offset: at,
        kind: u16::from_be_bytes([c, d]),
        data: data.ok_or_else(|| wrong("the file ends within a record"))?,
    })
}

impl Record<'_> {
    fn short(&self) -> Result<i16, String> {
        match *self.data {
            [a, b] => Ok(i16::from_be_bytes([a, b])),
            _ => Err("the record is not one number of 16 bits".into()),
        }
    }

    fn places(&self) -> Result<impl Iterator<Item = Place> + '_, String> {
        if !self.data.len().is_multiple_of(8) {
            return Err("the places are not whole pairs of 32 bits".into());
        }
        let number = |four: &[u8]| i32::from_be_bytes([four[0], four[1], four[2], four[3]]);
        Ok(self.data.chunks_exact(8).map(move |pair| Place {
            x: number(&pair[..4]),
            y: number(&pair[4..]),
        }))
    }

    fn letters(&self) -> String {
        let end = self.data.iter().position(|&byte| byte == 0);
        String::from_utf8_lossy(&self.data[..end.unwrap_or(self.data.len())]).into_owned()
    }
}

/// A cell that is being read.
struct Cell {
    offset: usize,
    name: String,
}

/// An element that is being read.
#[derive(Default)]
struct Element {
    kind: u16,
    layer: Option<i16>,
    datatype: Option<i16>,
    places: Vec<Place>,
    of: String,
    property: i16,
    load: i32,
    weights: Option<Weights>,
}

struct Reader<'a> {
    asked: &'a Asked,
    found: Found,
    started: bool,
    ended: bool,
    units: String,
    cell: Option<Cell>,
    element: Option<Element>,
    /// The cell whose elements are taken.
    taken: Option<Cell>,
    /// How many elements stand on layers that nobody asked for.
    others: BTreeMap<Layer, usize>,
    /// The layers of elements that were taken.
    used: BTreeSet<Layer>,
}

/// What KLayout keeps for itself.
const NO_CELL: &str = "$$$CONTEXT_INFO$$$";

impl<'a> Reader<'a> {
    fn new(asked: &'a Asked) -> Reader<'a> {
        Reader {
            asked,
            found: Found::default(),
            started: false,
            ended: false,
            units: String::new(),
            cell: None,
            element: None,
            taken: None,
            others: BTreeMap::new(),
            used: BTreeSet::new(),
        }
    }

    fn take(&mut self, record: &Record) -> Result<(), String> {
        if !self.started && record.kind != kind::HEADER {
            return Err("a stream begins with its header".into());
        }
        self.started = true;
        if self.element.is_some() {
            return self.within_element(record);
        }
        match record.kind {
            kind::UNITS => self.units = units(record.data)?,
            kind::BGNSTR if self.cell.is_some() => return Err("a cell within a cell".into()),
            kind::BGNSTR => {
                let (offset, name) = (record.offset, String::new());
                self.cell = Some(Cell { offset, name });
            }
            kind::STRNAME => match &mut self.cell {
                Some(cell) => cell.name = record.letters(),
                None => return Err("the name of a cell outside of one".into()),
            },
            kind::ENDSTR if self.cell.take().is_none() => {
                return Err("the end of a cell outside of one".into());
            }
            kind::ENDLIB if self.cell.is_some() => {
                return Err("the library ends within a cell".into())
            }
            kind::ENDLIB => self.ended = true,
            kind::ENDEL => return Err("the end of an element outside of one".into()),
            element if is_element(element) => match self.cell {
                Some(_) => {
                    let kind = record.kind;
                    self.element = Some(Element {
                        kind,
                        ..Element::default()
                    });
                }
                None => return Err("an element outside of a cell".into()),
            },
            _ => {}
        }
        Ok(())
    }

    fn within_element(&mut self, record: &Record) -> Result<(), String> {
        if record.kind == kind::ENDEL {
            let element = self.element.take().unwrap_or_default();
            return self.end_of(element);
        }
        let is_wanted = self.is_wanted();
        let Some(element) = &mut self.element else {
            return Ok(());
        };
        match record.kind {
            kind::LAYER => element.layer = Some(record.short()?),
            kind::DATATYPE | kind::TEXTTYPE | kind::BOXTYPE | kind::NODETYPE => {
                element.datatype = Some(record.short()?);
            }
            kind::XY => {
                // Places past those that could be taken are passed over: what has them is too long, and is said to be.
                let room = (MOST_SHAPES + 2).saturating_sub(element.places.len());
                element.places.extend(record.places()?.take(room));
            }
            kind::SNAME => element.of = record.letters(),
            kind::PROPATTR => element.property = record.short()?,
            kind::PROPVALUE if is_wanted && element.is_pin(self.asked.layers.pins) => {
                element.know(&record.letters())?;
            }
            kind::BGNSTR | kind::ENDSTR | kind::ENDLIB => {
                return Err("an element is not ended".into());
            }
            other if is_element(other) => return Err("an element within an element".into()),
            _ => {}
        }
        Ok(())
    }

    /// Whether the elements of this cell are asked for.
    fn is_wanted(&self) -> bool {
        let name = self.cell.as_ref().map_or("", |cell| &cell.name);
        match &self.asked.cell {
            Some(asked) => asked == name,
            None => name != NO_CELL,
        }
    }

    fn end_of(&mut self, element: Element) -> Result<(), String> {
        if !self.is_wanted() || element.kind == kind::NODE {
            return Ok(());
        }
        if matches!(element.kind, kind::SREF | kind::AREF) {
            let of = quoted(&element.of);
            return Err(format!(
                "a reference to cell {of}: references are not followed; flatten the layout, or name a cell by --cell"
            ));
        }
        let (Some(number), Some(datatype)) = (element.layer, element.datatype) else {
            return Err("an element without its layer".into());
        };
        let layer = Layer { number, datatype };
        match self.role(&element, layer)? {
            None if self.others.len() < 1 << 16 || self.others.contains_key(&layer) => {
                *self.others.entry(layer).or_default() += 1;
                Ok(())
            }
            None => Err("more than 65536 layers".into()),
            Some(role) => {
                self.own()?;
                self.used.insert(layer);
                self.fill(role, &element)
            }
        }
    }

    /// What an element is, by its kind and its layer.
    fn role(&self, element: &Element, layer: Layer) -> Result<Option<Role>, String> {
        let layers = &self.asked.layers;
        let is_box = matches!(element.kind, kind::BOUNDARY | kind::BOX);
        let is_path = element.kind == kind::PATH;
        let role = match element.kind {
            _ if is_box && layer == layers.macros => Some(Role::Macro),
            kind::PATH if layer == layers.wires => Some(Role::Wire),
            kind::TEXT if layer == layers.pins => Some(Role::Pin),
            _ if is_box && layer == layers.wires => {
                return Err(format!(
                    "a shape on {layer}, the wires' layer: wires are read from paths"
                ));
            }
            _ if is_path && layer == layers.macros => {
                return Err(format!(
                    "a path on {layer}, the macros' layer: macros are read from boxes"
                ));
            }
            _ => None,
        };
        Ok(role)
    }

    /// Elements are taken of one cell.
    fn own(&mut self) -> Result<(), String> {
        let Some(cell) = &self.cell else {
            return Ok(());
        };
        match &self.taken {
            None => {
                let (offset, name) = (cell.offset, cell.name.clone());
                self.taken = Some(Cell { offset, name });
                Ok(())
            }
            Some(taken) if taken.offset == cell.offset => Ok(()),
            Some(taken) => {
                let [one, other] = [&taken.name, &cell.name].map(|name| quoted(name));
                Err(format!("cells {one} and {other} have pins, macros or wires: --cell says which one is meant"))
            }
        }
    }

    fn fill(&mut self, role: Role, element: &Element) -> Result<(), String> {
        match (role, &element.places[..]) {
            (_, []) => Err("an element without places".into()),
            (Role::Macro, places) => self.found.take_macro(box_of(places)?),
            (Role::Wire, places) => {
                let mut pieces = places.windows(2);
                pieces.try_for_each(|pair| self.found.take_wire(pair[0], pair[1]))
            }
            (Role::Pin, [place]) => {
                self.found.net.weights = element.weights.unwrap_or(self.found.net.weights);
                let pin = Pin::new(place.x, place.y).with_load(element.load);
                self.found.take_pin(pin)
            }
            (Role::Pin, _) => Err("a text with several places".into()),
        }
    }

    fn found(mut self) -> Result<Found, String> {
        let others = first_layers(self.others.keys().map(Layer::to_string)).join(", ");
        let Some(cell) = &self.taken else {
            let layers = &self.asked.layers;
            let (macros, wires, pins) = (layers.macros, layers.wires, layers.pins);
            let cell = self.asked.cell.as_ref();
            let cell = cell.map(|name| format!("in cell {}: ", quoted(name)));
            let mut said = cell.unwrap_or_default();
            said += &format!("no box on {macros}, no path on {wires} and no text on {pins}");
            if !others.is_empty() {
                said += &format!("; it has {others}: --macro-layer, --wire-layer and --pin-layer say which are meant");
            }
            return Err(said);
        };
        self.found.title = format!("cell {}{}", quoted(&cell.name), self.units);
        let layers: BTreeSet<Layer> = self.others.keys().chain(&self.used).copied().collect();
        self.found.layers = first_layers(layers.iter().map(Layer::to_string));
        let passed: usize = self.others.values().sum();
        if passed > 0 {
            let shapes = counted(passed, "shape", "shapes");
            self.found
                .notes
                .push(format!("passed over: {shapes} on {others}"));
        }
        Ok(self.found)
    }
}

#[derive(Clone, Copy)]
enum Role {
    Macro,
    Wire,
    Pin,
}

fn is_element(record: u16) -> bool {
    use kind::{AREF, BOUNDARY, BOX, NODE, PATH, SREF, TEXT};
    [BOUNDARY, PATH, SREF, AREF, TEXT, NODE, BOX].contains(&record)
}

impl Element {
    /// Whether it is a pin, as far as it has been read: its layer stands before its properties.
    fn is_pin(&self, pins: Layer) -> bool {
        self.kind == kind::TEXT
            && self.layer == Some(pins.number)
            && self.datatype == Some(pins.datatype)
    }

    /// A property that our own files have; others say nothing to us.
    fn know(&mut self, said: &str) -> Result<(), String> {
        let words: Vec<&str> = said.split_whitespace().collect();
        match (self.property, &words[..]) {
            (LOAD, ["load", words @ ..]) => {
                [self.load] = numbers("property of a load", ["the load"], words)?;
            }
            (WEIGHTS, ["weights", words @ ..]) => {
                let [x, y] = numbers("property of weights", ["x", "y"], words)?;
                self.weights = Some(Weights { x, y });
            }
            _ => {}
        }
        Ok(())
    }
}

/// `, 1000 units a micron`, of the second number: metres in a unit.
fn units(data: &[u8]) -> Result<String, String> {
    let metres = data.get(8..16).and_then(|eight| eight.try_into().ok());
    let metres: [u8; 8] = metres.ok_or("the units are not two numbers of 64 bits")?;
    let a_micron = 1e-6 / from_real(metres);
    if a_micron.is_finite() && a_micron > 0.0 {
        Ok(format!(", {} units a micron", rounded(a_micron)))
    } else {
        Err("a unit is not above zero".into())
    }
}

/// A number without the noise of its last digits.
fn rounded(number: f64) -> f64 {
    if (number - number.round()).abs() < 1e-6 * number {
        number.round()
    } else {
        number
    }
}
