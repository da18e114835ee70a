//! A net as a design of one net: pins, blockages and routed wires.

use calzundi::{Macro, Place, Weights, Wire};

use super::{Layers, LAYER, LOAD, WEIGHT_X, WEIGHT_Y};
use crate::formats::drawing::{pin_name, Drawing};

/// The text of a net.
pub fn write(drawing: &Drawing, layers: &Layers) -> String {
    let layer = |layer: &Option<String>| layer.clone().unwrap_or(LAYER.into());
    [
        header(drawing),
        properties(drawing),
        die(drawing),
        pins(drawing, &layer(&layers.pins)),
        loads(drawing),
        blockages(drawing, &layer(&layers.macros)),
        nets(drawing, &layer(&layers.wires)),
        "END DESIGN\n".into(),
    ]
    .concat()
}

fn header(drawing: &Drawing) -> String {
    let (name, per_micron) = (&drawing.name, drawing.per_micron);
    format!(
        "VERSION 5.8 ;\nDIVIDERCHAR \"/\" ;\nBUSBITCHARS \"[]\" ;\nDESIGN {name} ;\nUNITS DISTANCE MICRONS {per_micron} ;\n"
    )
}

fn has_loads(drawing: &Drawing) -> bool {
    drawing.net.pins.iter().any(|pin| pin.load != 0)
}

/// What DEF has no words for, declared: loads, and weights with their values.
fn properties(drawing: &Drawing) -> String {
    let mut lines = String::new();
    let Weights { x, y } = drawing.net.weights;
    if drawing.net.weights != Weights::default() {
        lines += &format!("  DESIGN {WEIGHT_X} INTEGER {x} ;\n  DESIGN {WEIGHT_Y} INTEGER {y} ;\n");
    }
    if has_loads(drawing) {
        lines += &format!("  COMPONENTPIN {LOAD} INTEGER ;\n");
    }
    if lines.is_empty() {
        String::new()
    } else {
        format!("PROPERTYDEFINITIONS\n{lines}END PROPERTYDEFINITIONS\n")
    }
}

/// The box of all pins, macros and wires.
fn die(drawing: &Drawing) -> String {
    let pins = drawing.net.pins.iter().map(|pin| pin.place);
    let corners = drawing.net.macros.iter().flat_map(Macro::corners);
    let ends = drawing.wires.iter().flat_map(|wire| [wire.start, wire.end]);
    let all: Vec<Place> = pins.chain(corners).chain(ends).collect();
    let across = |of: fn(&Place) -> i32| {
        let values = || all.iter().map(of);
        (values().min().unwrap_or(0), values().max().unwrap_or(0))
    };
    let ((left, right), (bottom, top)) = (across(|place| place.x), across(|place| place.y));
    format!("DIEAREA ( {left} {bottom} ) ( {right} {top} ) ;\n")
}

fn pins(drawing: &Drawing, layer: &str) -> String {
    let (name, half) = (&drawing.name, drawing.width / 2);
    let low = -half;
    let mut text = format!("PINS {} ;\n", drawing.net.pins.len());
    for (at, pin) in drawing.net.pins.iter().enumerate() {
        let (own, Place { x, y }) = (pin_name(at), pin.place);
        text += &format!(
            "- {own} + NET {name} + DIRECTION INOUT + USE SIGNAL\n  \
             + LAYER {layer} ( {low} {low} ) ( {half} {half} ) + PLACED ( {x} {y} ) N ;\n"
        );
    }
    text + "END PINS\n"
}

fn loads(drawing: &Drawing) -> String {
    let pins = drawing.net.pins.iter().enumerate();
    let lines: Vec<String> = pins
        .filter(|(_, pin)| pin.load != 0)
        .map(|(at, pin)| format!("- PIN {} + PROPERTY {LOAD} {} ;\n", pin_name(at), pin.load))
        .collect();
    match lines.len() {
        0 => String::new(),
        count => format!(
            "PINPROPERTIES {count} ;\n{}END PINPROPERTIES\n",
            lines.concat()
        ),
    }
}

fn blockages(drawing: &Drawing, layer: &str) -> String {
    if drawing.net.macros.is_empty() {
        return String::new();
    }
    let mut text = format!("BLOCKAGES {} ;\n", drawing.net.macros.len());
    for one in &drawing.net.macros {
        let Macro {
            left,
            bottom,
            right,
            top,
        } = one;
        text += &format!("- LAYER {layer} RECT ( {left} {bottom} ) ( {right} {top} ) ;\n");
    }
    text + "END BLOCKAGES\n"
}

fn nets(drawing: &Drawing, layer: &str) -> String {
    let mut text = format!("NETS 1 ;\n- {}", drawing.name);
    for at in 0..drawing.net.pins.len() {
        text += &format!("\n  ( PIN {} )", pin_name(at));
    }
    text += "\n  + USE SIGNAL";
    for (at, Wire { start, end }) in drawing.wires.iter().enumerate() {
        let first = if at == 0 { "  + ROUTED" } else { "    NEW" };
        let end = if start.y == end.y {
            format!("( {} * )", end.x)
        } else {
            format!("( * {} )", end.y)
        };
        text += &format!("\n{first} {layer} ( {} {} ) {end}", start.x, start.y);
    }
    text + " ;\nEND NETS\n"
}
