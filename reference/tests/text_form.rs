//! The text form of two lists.

mod common;

use reference::generate::{hostile, Hostile};
use reference::lists::Lists;
use reference::net::Weights;
use reference::text::{parse, print};

#[test]
fn generated_nets_print_and_parse_back() {
    for (name, lists) in common::nets(20) {
        assert_eq!(parse(&print(&lists)), Ok(lists), "{name}");
    }
}

/// Refused lists too, as long as they are whole entries.
#[test]
fn hostile_lists_print_and_parse_back() {
    for &kind in Hostile::ALL {
        for seed in 0..50 {
            let lists = hostile(kind, seed);
            let whole = lists.pins.len().is_multiple_of(3) && lists.macros.len().is_multiple_of(4);
            let same = parse(&print(&lists)) == Ok(lists);
            assert_eq!(same, whole, "{} {seed}", kind.name());
        }
    }
}

#[test]
fn the_form() {
    let lists = Lists {
        pins: vec![1, -2, 0, i32::MIN, i32::MAX, 7],
        macros: vec![0, 0, 3, 4],
        weights: Weights { x: 2, y: i32::MIN },
    };
    let text = "weights 2 -2147483648\npin 1 -2\npin -2147483648 2147483647 7\nmacro 0 0 3 4\n";
    assert_eq!(print(&lists), text);
    let loose = "# a net\n\n  macro 0 0\t3 4 # beside it\r\npin 1 -2 0\nweights 2 -2147483648\npin -2147483648 2147483647 7";
    assert_eq!(parse(loose), Ok(lists));
}

/// Numbers left over have no line of their own but are still to be seen.
#[test]
fn left_over_numbers_show() {
    let lists = Lists {
        pins: vec![1, 2, 0, 3],
        macros: vec![4, 5],
        ..Lists::default()
    };
    let text = "pin 1 2\n# left over: pin 3\n# left over: macro 4 5\n";
    assert_eq!(print(&lists), text);
}

#[test]
fn bad_lines_say_where_and_what() {
    for (text, said) in [
        (
            "pin 1 2\npan 3 4\n",
            "line 2: 'pan' is neither 'pin' nor 'macro' nor 'weights'",
        ),
        ("\n\npin 1", "line 3: a pin needs a number for y"),
        ("macro 1 2 3", "line 1: a macro needs a number for top"),
        ("weights 1", "line 1: weights need a number for y"),
        (
            "weights 1 2\n# but\nweights 1 2",
            "line 3: a second line of weights",
        ),
        (
            "weights 1 2 3",
            "line 1: '3' stands after the end of the weights",
        ),
        ("pin 1 2 3 4", "line 1: '4' stands after the end of the pin"),
        (
            "pin 1.5 2",
            "line 1: '1.5' for x is no whole number of 32 bits",
        ),
        (
            "macro 0 0 2147483648 1",
            "line 1: '2147483648' for right is no whole number of 32 bits",
        ),
    ] {
        assert_eq!(parse(text).unwrap_err().to_string(), said);
    }
}
