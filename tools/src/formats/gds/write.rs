//! A net as a library of one cell: macros as boundaries, wires as paths, pins as texts.

use calzundi::{Macro, Place, Weights};

use super::record::{kind, real, LOAD, WEIGHTS};
use super::{Layer, Layers};
use crate::formats::drawing::{pin_name, Drawing};

/// The release of the stream.
const RELEASE: i16 = 600;

/// Year, month, day, hour, minute and second of the last change and of the last access. No clock is asked, so that a file depends on its
/// net alone.
const DATES: [i16; 12] = [1970, 1, 1, 0, 0, 0, 1970, 1, 1, 0, 0, 0];

/// A path whose ends reach half its width further, so that corners are filled.
const SQUARE_ENDS: i16 = 2;

/// The bytes of a net.
pub fn write(drawing: &Drawing, layers: &Layers) -> Vec<u8> {
    let mut out = Stream::default();
    out.header(drawing);
    for one in &drawing.net.macros {
        out.boundary(layers.macros, one);
    }
    for wire in &drawing.wires {
        out.path(layers.wires, drawing.width, &[wire.start, wire.end]);
    }
    for (at, pin) in drawing.net.pins.iter().enumerate() {
        out.text(layers.pins, pin.place, &pin_name(at));
        if pin.load != 0 {
            out.property(LOAD, &format!("load {}", pin.load));
        }
        let Weights { x, y } = drawing.net.weights;
        if at == 0 && drawing.net.weights != Weights::default() {
            out.property(WEIGHTS, &format!("weights {x} {y}"));
        }
        out.record(kind::ENDEL, &[]);
    }
    out.record(kind::ENDSTR, &[]);
    out.record(kind::ENDLIB, &[]);
    out.bytes
}

#[derive(Default)]
struct Stream {
    bytes: Vec<u8>,
}

impl Stream {
    fn record(&mut self, kind: u16, data: &[u8]) {
        let length = u16::try_from(4 + data.len()).expect("a record that is written is short");
        self.bytes.extend(length.to_be_bytes());
        self.bytes.extend(kind.to_be_bytes());
        self.bytes.extend(data);
    }

    fn shorts(&mut self, kind: u16, numbers: &[i16]) {
        let bytes: Vec<u8> = numbers.iter().flat_map(|n| n.to_be_bytes()).collect();
        self.record(kind, &bytes);
    }

    fn longs(&mut self, kind: u16, numbers: &[i32]) {
        let bytes: Vec<u8> = numbers.iter().flat_map(|n| n.to_be_bytes()).collect();
        self.record(kind, &bytes);
    }

    /// Letters, with a zero behind them where their count is odd.
    fn letters(&mut self, kind: u16, said: &str) {
        let mut bytes = said.as_bytes().to_vec();
        bytes.resize(bytes.len().next_multiple_of(2), 0);
        self.record(kind, &bytes);
    }

    fn header(&mut self, drawing: &Drawing) {
        self.shorts(kind::HEADER, &[RELEASE]);
        self.shorts(kind::BGNLIB, &DATES);
        self.letters(kind::LIBNAME, "CALZUNDI");
        let per_micron = f64::from(drawing.per_micron);
        let units = [real(1.0 / per_micron), real(1.0 / (per_micron * 1e6))];
        self.record(kind::UNITS, &units.concat());
        self.shorts(kind::BGNSTR, &DATES);
        self.letters(kind::STRNAME, &drawing.name);
    }

    fn start(&mut self, element: u16, layer: Layer, datatype: u16) {
        self.record(element, &[]);
        self.shorts(kind::LAYER, &[layer.number]);
        self.shorts(datatype, &[layer.datatype]);
    }

    fn places(&mut self, places: &[Place]) {
        let numbers: Vec<i32> = places.iter().flat_map(|place| [place.x, place.y]).collect();
        self.longs(kind::XY, &numbers);
    }

    fn boundary(&mut self, layer: Layer, one: &Macro) {
        self.start(kind::BOUNDARY, layer, kind::DATATYPE);
        let [a, b, c, d] = one.corners();
        self.places(&[a, b, d, c, a]);
        self.record(kind::ENDEL, &[]);
    }

    fn path(&mut self, layer: Layer, width: i32, places: &[Place]) {
        self.start(kind::PATH, layer, kind::DATATYPE);
        self.shorts(kind::PATHTYPE, &[SQUARE_ENDS]);
        self.longs(kind::WIDTH, &[width]);
        self.places(places);
        self.record(kind::ENDEL, &[]);
    }

    /// A text without its end: properties may follow.
    fn text(&mut self, layer: Layer, place: Place, said: &str) {
        self.start(kind::TEXT, layer, kind::TEXTTYPE);
        self.places(&[place]);
        self.letters(kind::STRING, said);
    }

    fn property(&mut self, number: i16, said: &str) {
        self.shorts(kind::PROPATTR, &[number]);
        self.letters(kind::PROPVALUE, said);
    }
}
