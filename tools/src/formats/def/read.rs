//! A net and its wires out of a design: pins, blockages on layers, and the routed wires of one net.

use std::collections::{BTreeMap, BTreeSet};

use calzundi::{Pin, Place};

use super::words::{Word, Words};
use super::{Asked, LOAD, WEIGHT_X, WEIGHT_Y};
use crate::formats::found::{box_of, counted, first_layers, spanned, Found};
use crate::line::{quoted, BadLine};
use crate::text::Lines;

/// The net and the wires of a text.
pub fn read(bytes: &[u8], asked: &Asked) -> Result<Found, BadLine> {
    let text = std::str::from_utf8(bytes).map_err(|error| {
        let before = &bytes[..error.valid_up_to()];
        let line = 1 + before.iter().filter(|&&byte| byte == b'\n').count();
        let wrong = "not UTF-8 text".into();
        BadLine { line, wrong }
    })?;
    let mut reader = Reader {
        asked,
        words: Words::new(text),
        found: Found::default(),
        lines: Lines::default(),
        design: "",
        pins: Vec::new(),
        names: BTreeSet::new(),
        loads: BTreeMap::new(),
        net: None,
        other: None,
        passed: Passed::default(),
        layer: "",
        layers: BTreeSet::new(),
    };
    reader.design()?;
    reader.found()
}

/// A pin of the design.
struct Placed<'a> {
    line: usize,
    name: &'a str,
    net: &'a str,
    place: Option<Place>,
}

/// The net that is taken: what it is called, and the pins that it says it joins; those of components have no name here.
struct Net<'a> {
    name: &'a str,
    joins: Vec<Option<&'a str>>,
}

/// How much was passed over.
#[derive(Default)]
struct Passed {
    components: usize,
    specials: usize,
    placements: usize,
    vias: usize,
    patches: usize,
    layers: usize,
    /// How often the layer of wires changes, the first one included.
    planes: usize,
}

struct Reader<'a> {
    asked: &'a Asked,
    words: Words<'a>,
    found: Found,
    lines: Lines,
    design: &'a str,
    pins: Vec<Placed<'a>>,
    /// The names of all pins, also of those on other layers.
    names: BTreeSet<&'a str>,
    loads: BTreeMap<&'a str, i32>,
    net: Option<Net<'a>>,
    /// A net that is not taken though none was asked for.
    other: Option<Word<'a>>,
    passed: Passed,
    /// The layer of the wire before.
    layer: &'a str,
    /// The layers that are named.
    layers: BTreeSet<&'a str>,
}

/// So many pins of a net, or of a design's list, are kept: each costs a few words of the file.
const MOST_NAMES: usize = 1 << 18;

impl<'a> Reader<'a> {
    fn design(&mut self) -> Result<(), BadLine> {
        loop {
            let word = self.words.word()?;
            match word.said {
                "DESIGN" => {
                    self.design = self.words.word()?.said;
                    self.words.skip()?;
                }
                "UNITS" => self.units()?,
                "PROPERTYDEFINITIONS" => self.definitions()?,
                "PINS" => self.section(word, Reader::pin)?,
                "PINPROPERTIES" => self.section(word, Reader::property)?,
                "BLOCKAGES" => self.section(word, Reader::blockage)?,
                "NETS" => self.section(word, Reader::net)?,
                "COMPONENTS" => self.section(word, |reader| {
                    reader.passed.components += 1;
                    reader.words.skip()
                })?,
                "SPECIALNETS" => self.section(word, |reader| {
                    reader.passed.specials += 1;
                    reader.words.skip()
                })?,
                "BEGINEXT" => while self.words.word()?.said != "ENDEXT" {},
                "END" if self.words.word()?.said == "DESIGN" => return Ok(()),
                "END" | ";" => {}
                _ => self.words.skip()?,
            }
        }
    }

    fn units(&mut self) -> Result<(), BadLine> {
        self.words.expect("DISTANCE")?;
        self.words.expect("MICRONS")?;
        let units = self.words.word()?.number("units a micron")?;
        self.found.title = format!(", {units} units a micron");
        self.words.expect(";")
    }

    /// A section `NAME count ; - .. ; - .. ; END NAME`. The count is not needed, and is not believed.
    fn section(
        &mut self,
        name: Word<'a>,
        entry: impl Fn(&mut Reader<'a>) -> Result<(), BadLine>,
    ) -> Result<(), BadLine> {
        self.words.skip()?;
        loop {
            let word = self.words.word()?;
            match word.said {
                "-" => entry(self)?,
                "END" => return self.words.expect(name.said),
                other => {
                    let (other, name) = (quoted(other), name.said);
                    return Err(word.wrong(format!("{other} in {name}, where - or END should be")));
                }
            }
        }
    }

    /// Properties: what our own files say with them is known, the rest passed over.
    fn definitions(&mut self) -> Result<(), BadLine> {
        loop {
            match self.words.word()?.said {
                "END" => return self.words.expect("PROPERTYDEFINITIONS"),
                "DESIGN" => {
                    let name = self.words.word()?.said;
                    self.words.word()?;
                    let value = self.words.word()?;
                    let weight = match name {
                        WEIGHT_X => &mut self.found.net.weights.x,
                        WEIGHT_Y => &mut self.found.net.weights.y,
                        _ if value.said == ";" => continue,
                        _ => {
                            self.words.skip()?;
                            continue;
                        }
                    };
                    *weight = value.number("a weight")?;
                    self.words.expect(";")?;
                }
                _ => self.words.skip()?,
            }
        }
    }

    /// `- name + NET net .. + PLACED ( x y ) N ;`
    fn pin(&mut self) -> Result<(), BadLine> {
        let word = self.words.word()?;
        let mut pin = Placed {
            line: word.line,
            name: word.said,
            net: "",
            place: None,
        };
        let mut on_layer = self.asked.layers.pins.is_none();
        loop {
            match self.words.word()?.said {
                ";" => break,
                "+" => {}
                _ => continue,
            }
            let option = self.words.word()?;
            match option.said {
                "NET" => pin.net = self.words.word()?.said,
                "LAYER" | "POLYGON" => {
                    let layer = self.words.word()?.said;
                    self.know(layer);
                    on_layer |= self.asked.layers.pins.as_deref() == Some(layer);
                }
                "PLACED" | "FIXED" | "COVER" => {
                    let place = self.words.place()?;
                    if pin.place.replace(place).is_some() {
                        let name = quoted(pin.name);
                        return Err(option.wrong(format!(
                            "pin {name} has a second place; a net's pin has one"
                        )));
                    }
                }
                ";" => break,
                _ => {}
            }
        }
        self.names.insert(word.said);
        if self.pins.len() >= MOST_NAMES || self.names.len() > MOST_NAMES {
            return Err(word.wrong(format!("more than {MOST_NAMES} pins are not read")));
        }
        if on_layer {
            self.pins.push(pin)
        } else {
            self.passed.layers += 1
        }
        Ok(())
    }

    /// `- PIN name + PROPERTY name value .. ;`, of which the load is ours.
    fn property(&mut self) -> Result<(), BadLine> {
        let kind = self.words.word()?;
        let name = self.words.word()?;
        loop {
            match self.words.word()?.said {
                ";" => return Ok(()),
                LOAD if kind.said == "PIN" => {
                    let load = self.words.word()?.number("a load")?;
                    self.loads.insert(name.said, load);
                }
                _ => {}
            }
        }
    }

    /// `- LAYER name .. RECT ( x y ) ( x y ) .. ;`, or a blockage for cells, which is in no wire's way.
    fn blockage(&mut self) -> Result<(), BadLine> {
        let kind = self.words.word()?;
        if kind.said != "LAYER" {
            self.passed.placements += 1;
            return self.words.skip();
        }
        let layer = self.words.word()?.said;
        self.know(layer);
        let wanted = self.asked.layers.macros.as_deref();
        if wanted.is_some_and(|wanted| wanted != layer) {
            self.passed.layers += 1;
            return self.words.skip();
        }
        let mut word = self.words.word()?;
        loop {
            let one = match word.said {
                ";" => return Ok(()),
                "RECT" => {
                    let one = spanned(self.words.place()?, self.words.place()?);
                    (one, self.words.word()?)
                }
                "POLYGON" => {
                    let (points, after) = self.outline()?;
                    (box_of(&points).map_err(|wrong| word.wrong(wrong))?, after)
                }
                _ => {
                    word = self.words.word()?;
                    continue;
                }
            };
            let taken = self.found.take_macro(one.0);
            taken.map_err(|wrong| word.wrong(wrong))?;
            self.lines.macros.push(word.line);
            word = one.1;
        }
    }

    /// The points of a polygon, as many as a box has and one more, and the word behind them all.
    fn outline(&mut self) -> Result<(Vec<Place>, Word<'a>), BadLine> {
        let mut points: Vec<Place> = Vec::new();
        loop {
            let word = self.words.word()?;
            if word.said != "(" {
                return Ok((points, word));
            }
            let place = self.words.rest_of_place(points.last().copied())?;
            if points.len() > 5 {
                points.pop();
            }
            points.push(place);
        }
    }

    /// `- name ( PIN pin ) ( component pin ) .. + ROUTED layer ( x y ) .. NEW layer .. ;`
    fn net(&mut self) -> Result<(), BadLine> {
        let word = self.words.word()?;
        let is_taken = match &self.asked.net {
            Some(asked) => asked == word.said && self.net.is_none(),
            None => self.net.is_none(),
        };
        if !is_taken {
            self.other = self.other.or(Some(word));
            return self.words.skip();
        }
        let mut joins = Vec::new();
        let mut next = self.words.word()?;
        while next.said == "(" {
            joins.push(self.joined()?);
            if joins.len() > MOST_NAMES {
                return Err(next.wrong(format!("more than {MOST_NAMES} pins are not read")));
            }
            next = self.words.word()?;
        }
        let name = word.said;
        self.net = Some(Net { name, joins });
        while next.said != ";" {
            let before = next.said;
            next = self.words.word()?;
            if before == "+" && ["ROUTED", "FIXED", "COVER", "NOSHIELD"].contains(&next.said) {
                next = self.wiring()?;
            }
        }
        Ok(())
    }

    /// What stands between the parentheses of a net's pin: the name of a pin of the design, and none of a component's.
    fn joined(&mut self) -> Result<Option<&'a str>, BadLine> {
        let (kind, name) = (self.words.word()?, self.words.word()?);
        let mut last = name;
        while last.said != ")" {
            last = self.words.word()?;
            if last.said == ";" {
                return Err(last.wrong("a net's pin without its )"));
            }
        }
        Ok((kind.said == "PIN").then_some(name.said))
    }

    /// Wires, layer by layer. Given back is the word behind them.
    fn wiring(&mut self) -> Result<Word<'a>, BadLine> {
        loop {
            let layer = self.words.word()?;
            if ["(", "+", ";"].contains(&layer.said) {
                return Err(layer.wrong("a wire without its layer"));
            }
            let word = self.wire(layer.said)?;
            if word.said != "NEW" {
                return Ok(word);
            }
        }
    }

    /// The places of one wire. Given back is the word behind it: `NEW`, `+` or `;`.
    fn wire(&mut self, layer: &'a str) -> Result<Word<'a>, BadLine> {
        self.know(layer);
        let wanted = self.asked.layers.wires.as_deref();
        let is_taken = wanted.is_none_or(|wanted| wanted == layer);
        self.passed.layers += usize::from(!is_taken);
        if is_taken && self.layer != layer {
            self.layer = layer;
            self.passed.planes += 1;
        }
        let mut before: Option<Place> = None;
        loop {
            let word = self.words.word()?;
            match word.said {
                "NEW" | "+" | ";" => return Ok(word),
                "TAPERRULE" | "STYLE" | "MASK" => {
                    self.words.word()?;
                }
                "TAPER" => {}
                "VIRTUAL" => {
                    self.words.expect("(")?;
                    before = Some(self.words.rest_of_place(before)?);
                }
                "RECT" => {
                    self.patch()?;
                    self.passed.patches += 1;
                }
                "(" => {
                    let place = self.words.rest_of_place(before)?;
                    if let Some(before) = before.filter(|_| is_taken) {
                        let taken = self.found.take_wire(before, place);
                        taken.map_err(|wrong| word.wrong(wrong))?;
                    }
                    before = Some(place);
                }
                orient if ORIENTS.contains(&orient) => {}
                _ => self.passed.vias += 1,
            }
        }
    }

    /// Keeps the name of a layer, to say which there are.
    fn know(&mut self, layer: &'a str) {
        if self.layers.len() < MOST_NAMES {
            self.layers.insert(layer);
        }
    }

    /// `( x y x y )`, a patch of metal beside a wire.
    fn patch(&mut self) -> Result<(), BadLine> {
        self.words.expect("(")?;
        for name in ["left", "bottom", "right", "top"] {
            self.words.word()?.number(name)?;
        }
        self.words.expect(")")
    }

    fn found(mut self) -> Result<Found, BadLine> {
        let name = self.chosen()?;
        for pin in self.pins.iter().filter(|pin| pin.net == name) {
            let word = Word {
                line: pin.line,
                said: pin.name,
            };
            let own = quoted(pin.name);
            let place = pin
                .place
                .ok_or_else(|| word.wrong(format!("pin {own} has no place")))?;
            let load = self.loads.get(pin.name).copied().unwrap_or(0);
            let taken = self
                .found
                .take_pin(Pin::new(place.x, place.y).with_load(load));
            taken.map_err(|wrong| word.wrong(wrong))?;
            self.lines.pins.push(pin.line);
        }
        self.found.missing = self.missing(name);
        self.found.notes = self.passed.notes();
        self.found.notes.extend(self.unknown());
        self.found.layers = first_layers(self.layers.iter().map(|layer| quoted(layer)));
        let (net, design) = (quoted(name), quoted(self.design));
        self.found.title = format!("net {net} of design {design}{}", self.found.title);
        self.found.lines = Some(self.lines);
        Ok(self.found)
    }

    /// The name of the net that is taken: the one that is asked for, or else the only one.
    fn chosen(&self) -> Result<&'a str, BadLine> {
        let pins = || self.pins.iter().filter(|pin| !pin.net.is_empty());
        let of_pin = |pin: &Placed<'a>| Word {
            line: pin.line,
            said: pin.net,
        };
        let end = self.words.end();
        if let Some(asked) = &self.asked.net {
            let of_nets = self.net.as_ref().map(|net| net.name);
            let known = of_nets.or_else(|| pins().map(|pin| pin.net).find(|net| net == asked));
            return known.ok_or_else(|| end.wrong(format!("there is no net {}", quoted(asked))));
        }
        let (name, other) = match &self.net {
            Some(net) => (net.name, self.other),
            None => {
                let first = pins().next().map(|pin| pin.net);
                let none = "there is no net in NETS, nor a pin of one in PINS";
                let first = first.ok_or_else(|| end.wrong(none))?;
                (first, pins().find(|pin| pin.net != first).map(of_pin))
            }
        };
        match other {
            Some(other) => {
                let both = format!("{} and {}", quoted(name), quoted(other.said));
                Err(other.wrong(format!(
                    "there are nets {both}: --net says which one is meant"
                )))
            }
            None => Ok(name),
        }
    }

    /// A word on loads of pins that are not in the design.
    fn unknown(&self) -> Option<String> {
        let loads = self.loads.keys();
        let unknown: Vec<&str> = loads
            .filter(|pin| !self.names.contains(*pin))
            .copied()
            .collect();
        let first = quoted(unknown.first()?);
        Some(match unknown.len() {
            1 => format!("passed over: the load of pin {first}, which is not in PINS"),
            many => {
                format!("passed over: the loads of {many} pins that are not in PINS, {first} first")
            }
        })
    }

    /// How many pins the net says it joins that have no place here.
    fn missing(&self, name: &str) -> usize {
        let here = self.pins.iter().filter(|pin| pin.net == name);
        let here: BTreeSet<&str> = here.map(|pin| pin.name).collect();
        let joins = self.net.iter().flat_map(|net| &net.joins);
        let is_here = |pin: &Option<&str>| pin.is_some_and(|name| here.contains(name));
        joins.filter(|pin| !is_here(pin)).count()
    }
}

impl Passed {
    fn notes(&self) -> Vec<String> {
        let each = [
            (
                self.components,
                "component, whose size is in a LEF",
                "components, whose sizes are in a LEF",
            ),
            (self.specials, "special net", "special nets"),
            (self.placements, "blockage of cells", "blockages of cells"),
            (self.vias, "via", "vias"),
            (self.patches, "patch of metal", "patches of metal"),
            (
                self.layers,
                "entry on another layer",
                "entries on other layers",
            ),
        ];
        let said = each.iter().filter(|(count, ..)| *count > 0);
        let said = said.map(|(count, one, many)| counted(*count, one, many));
        let said = said.collect::<Vec<String>>().join("; ");
        let mut notes = Vec::new();
        if !said.is_empty() {
            notes.push(format!("passed over: {said}"));
        }
        if self.planes > 1 {
            notes.push("wires of several layers are taken as of one".into());
        }
        notes
    }
}

const ORIENTS: [&str; 8] = ["N", "S", "W", "E", "FN", "FS", "FW", "FE"];
