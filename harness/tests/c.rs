//! The library from C: the header, the example, and that the header's bounds are those of the second program.

use std::fs;
use std::path::{Path, PathBuf};
use std::process::{Command, Output};

use reference::net::Net;
use reference::netfile::{BLOCKS, BLOCK_BYTES};
use reference::route::route;

const STRICT: [&str; 6] = [
    "-std=c99",
    "-Wall",
    "-Wextra",
    "-Wpedantic",
    "-Wconversion",
    "-Werror",
];

const LIBRARY: &str = "target/staticlib/libexports.a";

fn root() -> PathBuf {
    Path::new(env!("CARGO_MANIFEST_DIR")).join("..")
}

/// Runs a command that must succeed.
fn run(command: &mut Command) -> Output {
    let output = command
        .output()
        .unwrap_or_else(|error| panic!("{command:?}: {error}"));
    let wrong = String::from_utf8_lossy(&output.stderr);
    assert!(output.status.success(), "{command:?}: {wrong}");
    output
}

/// gcc in the repository's root, with the header in reach and no warning let pass.
fn gcc() -> Command {
    let mut command = Command::new("gcc");
    command.current_dir(root()).args(STRICT).arg("-Iinclude");
    command
}

/// What a small C program with the header and the library prints.
fn printed(name: &str, body: &str) -> String {
    let folder = Path::new(env!("CARGO_TARGET_TMPDIR"));
    let (source, program) = (folder.join(format!("{name}.c")), folder.join(name));
    let text = format!("#include <stdio.h>\n#include \"calzundi.h\"\nint main(void)\n{{\n{body}    return 0;\n}}\n");
    fs::write(&source, text).unwrap();
    run(gcc().arg(&source).args([LIBRARY, "-o"]).arg(&program));
    let output = run(&mut Command::new(&program));
    String::from_utf8(output.stdout).unwrap()
}

#[test]
fn the_header_and_the_example_are_strict_c() {
    run(gcc().args(["-fsyntax-only", "-x", "c", "include/calzundi.h"]));
    run(gcc().args(["-fsyntax-only", "examples/third_net.c"]));
}

/// The example with the static library prints what the second program does for the third worked net.
#[test]
fn the_example_routes_the_third_net() {
    let program = Path::new(env!("CARGO_TARGET_TMPDIR")).join("third_net");
    run(gcc()
        .args(["examples/third_net.c", LIBRARY, "-o"])
        .arg(&program));
    let output = run(&mut Command::new(&program));
    let file = fs::read(root().join("examples/files/three-pins.net")).unwrap();
    assert_eq!(String::from_utf8(output.stdout).unwrap(), route(&file));
}

/// The three bounds (128 pins, 128 macros, one million), the greatest weight, and what follows from them.
#[test]
fn the_header_has_the_bounds() {
    let names = [
        ("CALZUNDI_PINS", Net::PINS),
        ("CALZUNDI_MACROS", Net::MACROS),
        ("CALZUNDI_COORDINATE", Net::COORDINATE as usize),
        ("CALZUNDI_WEIGHT", Net::GREATEST_WEIGHT as usize),
        ("CALZUNDI_WEIGHTS", 18),
        ("CALZUNDI_BLOCK_BYTES", BLOCK_BYTES),
        ("CALZUNDI_LONGEST_FILE", BLOCKS * BLOCK_BYTES),
        ("CALZUNDI_LOAD", Net::LOAD as usize),
        ("CALZUNDI_PIN_NUMBERS", Net::PIN_NUMBERS),
        ("CALZUNDI_READ_PIN_NUMBERS", Net::PIN_NUMBERS * Net::PINS),
        ("CALZUNDI_READ_MACRO_NUMBERS", 512),
        ("sizeof(calzundi_length)", 8),
        ("CALZUNDI_RATE", 1_000_000),
        ("CALZUNDI_BOUGHT_EDGES", reference::bought::EDGES),
        ("CALZUNDI_BEST_PINS", reference::best::PINS),
        ("CALZUNDI_BEST_MACROS", reference::best::MACROS),
        ("CALZUNDI_BEST_WORK", reference::best::WORK),
        ("CALZUNDI_BOUND_LEFT", reference::sweeps::LEFT),
        ("CALZUNDI_BOUND_ROWS", reference::sweeps::ROWS),
    ];
    let lines = names.map(|(name, _)| format!("    printf(\"%d\\n\", (int)({name}));\n"));
    let expected = names.map(|(_, number)| format!("{number}\n"));
    assert_eq!(printed("bounds", &lines.concat()), expected.concat());
}

/// Document 01's space for each operation, also where m and k are given as sums.
#[test]
fn the_header_works_out_what_to_lend() {
    let (mut lines, mut expected) = (String::new(), String::new());
    for (m, k) in [
        (1, 0),
        (3, 0),
        (2, 1),
        (60, 30),
        (61, 31),
        (64, 64),
        (128, 128),
    ] {
        let n = m + 4 * k;
        let blocks = |a_block| 1 + usize::div_ceil(m, a_block) + usize::div_ceil(k, 30);
        let (sum_m, sum_k) = (format!("1 + {}", m - 1), format!("0 + {k}"));
        for (name, number) in [
            (format!("VERTEX_NUMBERS({sum_m}, {sum_k})"), 2 * n),
            (format!("EDGE_NUMBERS({sum_m}, {sum_k})"), 16 * n),
            (format!("PATH_NUMBERS({sum_m})"), 5 * m),
            (format!("TREE_NUMBERS({sum_m}, {sum_k})"), 4 * (n + m)),
            (format!("SLID_NUMBERS({sum_m}, {sum_k})"), 8 * (n + m)),
            (format!("WIRE_NUMBERS({sum_m}, {sum_k})"), 8 * (n + m)),
            (
                format!("BEST_NUMBERS({sum_m}, {sum_k})"),
                4 * (m + 2 * k) * (m + 2 * k),
            ),
            (format!("FILE_BYTES({sum_m}, {sum_k})"), 512 * blocks(60)),
            (
                format!("LOADED_FILE_BYTES({sum_m}, {sum_k})"),
                512 * blocks(40),
            ),
        ] {
            lines += &format!("    printf(\"%d\\n\", CALZUNDI_{name});\n");
            expected += &format!("{number}\n");
        }
    }
    assert_eq!(printed("sizes", &lines), expected);
}

/// "A list or a lent space with a count of 0 may be null": every operation answers as for an empty one, and alters no count, no total, no
/// metal and no weight.
#[test]
fn null_with_a_count_of_zero() {
    let calls = [
        ("check(NULL, 0, NULL, 0, 1, 1)", 11),
        (
            "graph(NULL, 0, NULL, 0, 1, 1, NULL, 0, NULL, 0, &a, &b)",
            11,
        ),
        ("terminal_tree(NULL, 0, NULL, 0, 1, 1, NULL, 0, &a, &t)", 11),
        (
            "refined_tree(NULL, 0, NULL, 0, 1, 1, NULL, 0, &a, &t, &l)",
            11,
        ),
        ("slid_tree(NULL, 0, NULL, 0, 1, 1, NULL, 0, &a, &t, &l)", 11),
        ("check_tree(NULL, 0, NULL, 0, 1, 1, NULL, 0, &t, &l)", 11),
        ("wires(NULL, 0, NULL, 0, 1, 1, NULL, 0, &a)", 11),
        ("grid_distances(NULL, 0, NULL, 0, 1, 1, NULL, 0, &a)", 11),
        (
            "delay(NULL, 0, NULL, 0, 1, 1, 5, 5, 1.0, 1.0, NULL, 0, &a)",
            11,
        ),
        (
            "best_tree(NULL, 0, NULL, 0, 1, 1, NULL, 0, NULL, 0, &a, &t, &l)",
            11,
        ),
        (
            "lower_bound(NULL, 0, NULL, 0, 1, 1, NULL, 0, NULL, 0, &h)",
            11,
        ),
        ("price(NULL, 0, NULL, 0, 1, 1, NULL, 0, &h)", 11),
        ("write_file(NULL, 0, NULL, 0, 1, 1, NULL, 0, &a)", 11),
        ("read_file(NULL, 0, NULL, 0, NULL, 0, &a, &b, &x, &y)", 21),
        ("check(pin, 3, NULL, 0, 1, 1)", 0),
        ("graph(pin, 3, NULL, 0, 1, 1, NULL, 0, NULL, 0, &a, &b)", 21),
        ("terminal_tree(pin, 3, NULL, 0, 1, 1, NULL, 0, &a, &t)", 21),
        (
            "refined_tree(pin, 3, NULL, 0, 1, 1, NULL, 0, &a, &t, &l)",
            21,
        ),
        ("slid_tree(pin, 3, NULL, 0, 1, 1, NULL, 0, &a, &t, &l)", 21),
        ("check_tree(pin, 3, NULL, 0, 1, 1, pin, 3, &t, &l)", 33),
        ("check_tree(pin, 3, NULL, 0, 1, 1, equal, 4, &t, &l)", 34),
        ("check_tree(two, 6, NULL, 0, 1, 1, NULL, 0, &t, &l)", 35),
        ("check_tree(pin, 3, NULL, 0, 1, 1, NULL, 0, &c, &c)", 0),
        ("wires(pin, 3, NULL, 0, 1, 1, NULL, 0, &a)", 21),
        ("grid_distances(pin, 3, NULL, 0, 1, 1, NULL, 0, &a)", 21),
        (
            "delay(pin, 3, NULL, 0, 1, 1, 5, 5, 1.0, 1.0, NULL, 0, &a)",
            21,
        ),
        (
            "delay(pin, 3, NULL, 0, 1, 1, 5, 6, 1.0, -0.0, &d, 1, &a)",
            38,
        ),
        (
            "delay(pin, 3, NULL, 0, 1, 1, 5, 6, 1.0, 1.0, &d, 1, &a)",
            39,
        ),
        (
            "delay(two, 6, NULL, 0, 1, 1, 5, 5, 1.0, 1e308, e, 2, &a)",
            40,
        ),
        (
            "best_tree(pin, 3, NULL, 0, 1, 1, NULL, 0, NULL, 0, &a, &t, &l)",
            21,
        ),
        (
            "lower_bound(pin, 3, NULL, 0, 1, 1, NULL, 0, NULL, 0, &h)",
            21,
        ),
        (
            "lower_bound(pin, 3, NULL, 0, 1, 9, NULL, 0, NULL, 0, &h)",
            18,
        ),
        ("price(pin, 3, NULL, 0, 1, 1, NULL, 0, &h)", 31),
        ("write_file(pin, 3, NULL, 0, 1, 1, NULL, 0, &a)", 21),
        ("check(pin, 3, NULL, 0, 0, 1)", 18),
        ("check(pin, 3, NULL, 0, 1, 9)", 18),
        (
            "refined_tree(pin, 3, NULL, 0, 9, 1, NULL, 0, &a, &t, &l)",
            18,
        ),
        ("price(pin, 3, NULL, 0, 1, INT32_MIN, NULL, 0, &h)", 18),
    ];
    let mut lines = String::from(
        "    const int32_t pin[3] = {5, 5, 0}, two[6] = {5, 5, 0, 6, 6, 0}, equal[4] = {5, 5, 5, 5};
    calzundi_length c = 7, t = 7, l = 7;
    size_t a = 7, b = 7;
    uint64_t h = 7;
    double d = 7, e[2] = {7, 7};
    int32_t x = 7, y = 7;\n",
    );
    let mut expected = String::new();
    for (call, number) in calls {
        lines += &format!("    printf(\"%d\\n\", (int)calzundi_{call});\n");
        expected += &format!("{number}\n");
    }
    lines += "    printf(\"%g %g %g\\n\", d, e[0], e[1]);\n";
    expected += "7 7 7\n";
    lines += "    printf(\"%d %d %d %d %d %d %d\\n\", (int)a, (int)b, (int)t, (int)l, (int)h, (int)x, (int)y);\n";
    expected += "7 7 7 7 7 7 7\n";
    assert_eq!(printed("nulls", &lines), expected);
}

/// The net of the first request by the header's calls: the total in cost, the metal beside it, and the weights from its file.
#[test]
fn the_weighed_net_from_c() {
    let lines = "    const int32_t pins[12] = {3, 1, 0, 0, 0, 0, 2, 0, 0, 0, 2, 0};
    int32_t edges[CALZUNDI_TREE_NUMBERS(4, 0)], read_pins[CALZUNDI_READ_PIN_NUMBERS], read_macros[CALZUNDI_READ_MACRO_NUMBERS];
    uint8_t file[CALZUNDI_FILE_BYTES(4, 0)];
    size_t count = 0, m = 0, k = 0;
    calzundi_length total = 0, metal = 0;
    int32_t x = 0, y = 0;
    int code = (int)calzundi_refined_tree(pins, 12, NULL, 0, 1, 3, edges, CALZUNDI_TREE_NUMBERS(4, 0), &count, &total, &metal);
    printf(\"%d %d %d %d\\n\", code, (int)count, (int)total, (int)metal);
    code = (int)calzundi_write_file(pins, 12, NULL, 0, 1, 3, file, sizeof file, &count);
    printf(\"%d %d %d %d\\n\", code, (int)count, (int)file[24], (int)file[28]);
    code = (int)calzundi_read_file(file, count, read_pins, CALZUNDI_READ_PIN_NUMBERS, read_macros, CALZUNDI_READ_MACRO_NUMBERS, &m, &k, &x,
                                   &y);
    printf(\"%d %d %d %d %d\\n\", code, (int)m, (int)k, (int)x, (int)y);
";
    let expected = "0 4 11 7\n0 1024 0 3\n0 4 0 1 3\n";
    assert_eq!(printed("weighed", lines), expected);
}

/// The weighed net's lower bound by the header's call: no tree costs less than the refined one, and the work is cleared.
#[test]
fn a_lower_bound_from_c() {
    let lines = "    static uint32_t left[CALZUNDI_BOUND_LEFT + 1];
    static uint64_t rows[CALZUNDI_BOUND_ROWS + 1];
    const int32_t pins[12] = {3, 1, 0, 0, 0, 0, 2, 0, 0, 0, 2, 0};
    uint64_t bound = 0, sum = 0;
    for (size_t i = 0; i <= CALZUNDI_BOUND_LEFT; i++) left[i] = 7;
    for (size_t i = 0; i <= CALZUNDI_BOUND_ROWS; i++) rows[i] = 7;
    int code = (int)calzundi_lower_bound(pins, 12, NULL, 0, 1, 3, left, CALZUNDI_BOUND_LEFT + 1, rows, CALZUNDI_BOUND_ROWS + 1, &bound);
    for (size_t i = 0; i <= CALZUNDI_BOUND_LEFT; i++) sum += left[i];
    for (size_t i = 0; i <= CALZUNDI_BOUND_ROWS; i++) sum += rows[i];
    printf(\"%d %d %d\\n\", code, (int)bound, (int)sum);\n";
    assert_eq!(printed("bound", lines), "0 11 14\n");
}

/// Four pins in a row by the header's call: the delay at the second is 1 + 2^-52.
#[test]
fn delays_from_c() {
    let lines = "    const int32_t pins[12] = {2, 0, 0, 0, 0, 1, -1, 0, 0, 1, 0, 0};
    double delays[CALZUNDI_DELAY_NUMBERS(4)];
    size_t count = 0;
    int code = (int)calzundi_delay(pins, 12, NULL, 0, 1, 1, -1, 0, 1.0, 1.0 / 9007199254740992.0, delays, 4, &count);
    printf(\"%d %d %a %a %a\\n\", code, (int)count, delays[0], delays[1], delays[3]);
    printf(\"%s\\n\", calzundi_refusal_text(40));\n";
    let expected = "0 4 0x0p+0 0x1.0000000000001p+0 0x1.0000000000002p+0\na delay is not finite\n";
    assert_eq!(printed("delays", lines), expected);
}
