//! The library's calls, one for one: flat lists in, space lent by the caller, counts and totals out. Every length and every content is
//! taken, so there is nothing to test before a call. Most users want [`crate::Net`], which works sizes out and owns what it gives.
//!
//! This is the one file that knows how the library is called.

use crate::{Place, Refusal, Technology, Weights};

/// The bare calls, as include/calzundi.h declares them and with what it asks of pointers.
pub mod bare {
    /// The totals of trees, as wide as the library writes them.
    pub type Length = i64;

    /// The calls of the refined and of the slid tree have one form.
    pub type Tree = unsafe extern "C" fn(
        *const i32,
        usize,
        *const i32,
        usize,
        i32,
        i32,
        *mut i32,
        usize,
        *mut usize,
        *mut Length,
        *mut Length,
    ) -> i32;

    extern "C" {
        pub fn calzundi_version() -> u32;

        pub fn calzundi_lists_since_1_12() -> u32;

        pub fn calzundi_check(
            pins: *const i32,
            pins_len: usize,
            macros: *const i32,
            macros_len: usize,
            weight_x: i32,
            weight_y: i32,
        ) -> i32;

        pub fn calzundi_graph(
            pins: *const i32,
            pins_len: usize,
            macros: *const i32,
            macros_len: usize,
            weight_x: i32,
            weight_y: i32,
            vertices: *mut i32,
            vertices_len: usize,
            edges: *mut i32,
            edges_len: usize,
            vertex_count: *mut usize,
            edge_count: *mut usize,
        ) -> i32;

        pub fn calzundi_terminal_tree(
            pins: *const i32,
            pins_len: usize,
            macros: *const i32,
            macros_len: usize,
            weight_x: i32,
            weight_y: i32,
            paths: *mut i64,
            paths_len: usize,
            count: *mut usize,
            total: *mut Length,
        ) -> i32;

        pub fn calzundi_refined_tree(
            pins: *const i32,
            pins_len: usize,
            macros: *const i32,
            macros_len: usize,
            weight_x: i32,
            weight_y: i32,
            edges: *mut i32,
            edges_len: usize,
            count: *mut usize,
            total: *mut Length,
            metal: *mut Length,
        ) -> i32;

        pub fn calzundi_slid_tree(
            pins: *const i32,
            pins_len: usize,
            macros: *const i32,
            macros_len: usize,
            weight_x: i32,
            weight_y: i32,
            edges: *mut i32,
            edges_len: usize,
            count: *mut usize,
            total: *mut Length,
            metal: *mut Length,
        ) -> i32;

        pub fn calzundi_best_tree(
            pins: *const i32,
            pins_len: usize,
            macros: *const i32,
            macros_len: usize,
            weight_x: i32,
            weight_y: i32,
            work: *mut u32,
            work_len: usize,
            edges: *mut i32,
            edges_len: usize,
            count: *mut usize,
            total: *mut Length,
            metal: *mut Length,
        ) -> i32;

        pub fn calzundi_lower_bound(
            pins: *const i32,
            pins_len: usize,
            macros: *const i32,
            macros_len: usize,
            weight_x: i32,
            weight_y: i32,
            left: *mut u32,
            left_len: usize,
            rows: *mut u64,
            rows_len: usize,
            bound: *mut u64,
        ) -> i32;

        pub fn calzundi_check_tree(
            pins: *const i32,
            pins_len: usize,
            macros: *const i32,
            macros_len: usize,
            weight_x: i32,
            weight_y: i32,
            edges: *const i32,
            edges_len: usize,
            cost: *mut Length,
            metal: *mut Length,
        ) -> i32;

        pub fn calzundi_wires(
            pins: *const i32,
            pins_len: usize,
            macros: *const i32,
            macros_len: usize,
            weight_x: i32,
            weight_y: i32,
            wires: *mut i32,
            wires_len: usize,
            count: *mut usize,
        ) -> i32;

        pub fn calzundi_grid_distances(
            pins: *const i32,
            pins_len: usize,
            macros: *const i32,
            macros_len: usize,
            weight_x: i32,
            weight_y: i32,
            table: *mut i64,
            table_len: usize,
            count: *mut usize,
        ) -> i32;

        pub fn calzundi_delay(
            pins: *const i32,
            pins_len: usize,
            macros: *const i32,
            macros_len: usize,
            weight_x: i32,
            weight_y: i32,
            driver_x: i32,
            driver_y: i32,
            resistance: f64,
            capacitance: f64,
            delays: *mut f64,
            delays_len: usize,
            count: *mut usize,
        ) -> i32;

        pub fn calzundi_price(
            pins: *const i32,
            pins_len: usize,
            macros: *const i32,
            macros_len: usize,
            weight_x: i32,
            weight_y: i32,
            bands: *const u64,
            bands_len: usize,
            charge: *mut u64,
        ) -> i32;

        pub fn calzundi_write_file(
            pins: *const i32,
            pins_len: usize,
            macros: *const i32,
            macros_len: usize,
            weight_x: i32,
            weight_y: i32,
            bytes: *mut u8,
            bytes_len: usize,
            given: *mut usize,
        ) -> i32;

        pub fn calzundi_read_file(
            bytes: *const u8,
            bytes_len: usize,
            pins: *mut i32,
            pins_len: usize,
            macros: *mut i32,
            macros_len: usize,
            m: *mut usize,
            k: *mut usize,
            weight_x: *mut i32,
            weight_y: *mut i32,
        ) -> i32;
    }
}

/// As the header does, the crate refers to the name for what lists mean, so that no other library is linked; build.rs says so with words
/// before the linker does.
#[used]
static LISTS_MEANT: unsafe extern "C" fn() -> u32 = bare::calzundi_lists_since_1_12;

/// The version of the library that is linked: its two numbers.
pub fn version() -> (u32, u32) {
    // SAFETY: nothing is handed over.
    let number = unsafe { bare::calzundi_version() };
    (number / 1000, number % 1000)
}

/// A net as the library takes it: three numbers a pin (x, y, load), four a macro (left, bottom, right, top), whole or not, and the weights.
#[derive(Clone, Copy, Debug)]
pub struct Lists<'a> {
    pub pins: &'a [i32],
    pub macros: &'a [i32],
    pub weights: Weights,
}

/// What stands in a count, a total, the metal, a charge or a weight before a call. A refusal leaves it, which is looked at where debug
/// assertions are on.
const UNTOUCHED: u64 = 0x5eed_5eed;

/// 0 is success; else the number of the refusal, with every number that goes through a pointer as it was.
fn answer<A>(code: i32, numbers: &[u64], given: A) -> Result<A, Refusal> {
    if code == 0 {
        return Ok(given);
    }
    debug_assert!(
        numbers.iter().all(|&number| number == UNTOUCHED),
        "refusal {code} touched a number that goes through a pointer"
    );
    Err(Refusal::answered(code))
}

#[cfg(test)]
mod tests {
    use super::answer;
    use crate::Refusal;

    /// A number that no refusal of this crate has was a panic.
    #[test]
    fn a_number_of_a_newer_library_is_a_value() {
        let refusal = answer(99, &[], ()).unwrap_err();
        assert_eq!(refusal, Refusal::Unknown(99));
        assert_eq!(refusal.number(), 99);
        assert_eq!(
            refusal.to_string(),
            "refused 99: no refusal has this number"
        );
        assert_eq!(Refusal::from_number(99), None);
        assert_eq!(answer(15, &[], ()), Err(Refusal::PinTwice));
        assert_eq!(answer(0, &[], ()), Ok(()));
    }
}

/// Check a net.
pub fn check(lists: Lists) -> Result<(), Refusal> {
    let Lists {
        pins,
        macros,
        weights,
    } = lists;
    // SAFETY: the library reads the two slices and keeps neither.
    let code = unsafe {
        bare::calzundi_check(
            pins.as_ptr(),
            pins.len(),
            macros.as_ptr(),
            macros.len(),
            weights.x,
            weights.y,
        )
    };
    answer(code, &[], ())
}

/// Graph: how many vertices and edges were given.
pub fn graph(
    lists: Lists,
    vertices: &mut [i32],
    edges: &mut [i32],
) -> Result<(usize, usize), Refusal> {
    let Lists {
        pins,
        macros,
        weights,
    } = lists;
    let (mut v, mut e) = (UNTOUCHED as usize, UNTOUCHED as usize);
    // SAFETY: the slices do not overlap, since two of them are borrowed mutably, and the library keeps none.
    let code = unsafe {
        bare::calzundi_graph(
            pins.as_ptr(),
            pins.len(),
            macros.as_ptr(),
            macros.len(),
            weights.x,
            weights.y,
            vertices.as_mut_ptr(),
            vertices.len(),
            edges.as_mut_ptr(),
            edges.len(),
            &mut v,
            &mut e,
        )
    };
    answer(code, &[v as u64, e as u64], (v, e))
}

/// Terminal tree: how many paths were given, and their total.
pub fn terminal_tree(lists: Lists, paths: &mut [i64]) -> Result<(usize, i64), Refusal> {
    let Lists {
        pins,
        macros,
        weights,
    } = lists;
    let (mut count, mut total) = (UNTOUCHED as usize, UNTOUCHED as i64);
    // SAFETY: as for `graph`.
    let code = unsafe {
        bare::calzundi_terminal_tree(
            pins.as_ptr(),
            pins.len(),
            macros.as_ptr(),
            macros.len(),
            weights.x,
            weights.y,
            paths.as_mut_ptr(),
            paths.len(),
            &mut count,
            &mut total,
        )
    };
    answer(code, &[count as u64, total as u64], (count, total))
}

/// What a refined, a slid or a best tree gives: how many edges, their total, and the metal to lay.
#[derive(Clone, Copy, Debug, PartialEq, Eq)]
pub struct Tree {
    pub edges: usize,
    pub total: i64,
    pub metal: i64,
}

fn tree(call: bare::Tree, lists: Lists, edges: &mut [i32]) -> Result<Tree, Refusal> {
    let Lists {
        pins,
        macros,
        weights,
    } = lists;
    let mut count = UNTOUCHED as usize;
    let (mut total, mut metal) = (UNTOUCHED as i64, UNTOUCHED as i64);
    // SAFETY: as for `graph`.
    let code = unsafe {
        call(
            pins.as_ptr(),
            pins.len(),
            macros.as_ptr(),
            macros.len(),
            weights.x,
            weights.y,
            edges.as_mut_ptr(),
            edges.len(),
            &mut count,
            &mut total,
            &mut metal,
        )
    };
    let given = Tree {
        edges: count,
        total,
        metal,
    };
    answer(code, &[count as u64, total as u64, metal as u64], given)
}

/// Refined tree.
pub fn refined_tree(lists: Lists, edges: &mut [i32]) -> Result<Tree, Refusal> {
    tree(bare::calzundi_refined_tree, lists, edges)
}

/// Slid tree.
pub fn slid_tree(lists: Lists, edges: &mut [i32]) -> Result<Tree, Refusal> {
    tree(bare::calzundi_slid_tree, lists, edges)
}

/// Best tree, with work that is cleared.
pub fn best_tree(lists: Lists, work: &mut [u32], edges: &mut [i32]) -> Result<Tree, Refusal> {
    let Lists {
        pins,
        macros,
        weights,
    } = lists;
    let mut count = UNTOUCHED as usize;
    let (mut total, mut metal) = (UNTOUCHED as i64, UNTOUCHED as i64);
    // SAFETY: as for `graph`.
    let code = unsafe {
        bare::calzundi_best_tree(
            pins.as_ptr(),
            pins.len(),
            macros.as_ptr(),
            macros.len(),
            weights.x,
            weights.y,
            work.as_mut_ptr(),
            work.len(),
            edges.as_mut_ptr(),
            edges.len(),
            &mut count,
            &mut total,
            &mut metal,
        )
    };
    let given = Tree {
        edges: count,
        total,
        metal,
    };
    answer(code, &[count as u64, total as u64, metal as u64], given)
}

/// Lower bound, with work of two widths that is cleared.
pub fn lower_bound(lists: Lists, left: &mut [u32], rows: &mut [u64]) -> Result<u64, Refusal> {
    let Lists {
        pins,
        macros,
        weights,
    } = lists;
    let mut bound = UNTOUCHED;
    // SAFETY: as for `graph`.
    let code = unsafe {
        bare::calzundi_lower_bound(
            pins.as_ptr(),
            pins.len(),
            macros.as_ptr(),
            macros.len(),
            weights.x,
            weights.y,
            left.as_mut_ptr(),
            left.len(),
            rows.as_mut_ptr(),
            rows.len(),
            &mut bound,
        )
    };
    answer(code, &[bound], bound)
}

/// Check a bought-in tree: its cost and its metal. An edge is four numbers, from either end.
pub fn check_tree(lists: Lists, edges: &[i32]) -> Result<(i64, i64), Refusal> {
    let Lists {
        pins,
        macros,
        weights,
    } = lists;
    let (mut cost, mut metal) = (UNTOUCHED as i64, UNTOUCHED as i64);
    // SAFETY: the library reads the three slices and keeps none.
    let code = unsafe {
        bare::calzundi_check_tree(
            pins.as_ptr(),
            pins.len(),
            macros.as_ptr(),
            macros.len(),
            weights.x,
            weights.y,
            edges.as_ptr(),
            edges.len(),
            &mut cost,
            &mut metal,
        )
    };
    answer(code, &[cost as u64, metal as u64], (cost, metal))
}

/// Wires: how many were given.
pub fn wires(lists: Lists, wires: &mut [i32]) -> Result<usize, Refusal> {
    let Lists {
        pins,
        macros,
        weights,
    } = lists;
    let mut count = UNTOUCHED as usize;
    // SAFETY: as for `graph`.
    let code = unsafe {
        bare::calzundi_wires(
            pins.as_ptr(),
            pins.len(),
            macros.as_ptr(),
            macros.len(),
            weights.x,
            weights.y,
            wires.as_mut_ptr(),
            wires.len(),
            &mut count,
        )
    };
    answer(code, &[count as u64], count)
}

/// Distances on the grid: how many numbers were given.
pub fn grid_distances(lists: Lists, table: &mut [i64]) -> Result<usize, Refusal> {
    let Lists {
        pins,
        macros,
        weights,
    } = lists;
    let mut count = UNTOUCHED as usize;
    // SAFETY: as for `graph`.
    let code = unsafe {
        bare::calzundi_grid_distances(
            pins.as_ptr(),
            pins.len(),
            macros.as_ptr(),
            macros.len(),
            weights.x,
            weights.y,
            table.as_mut_ptr(),
            table.len(),
            &mut count,
        )
    };
    answer(code, &[count as u64], count)
}

/// Delay: how many delays were given, one for each pin in the order of places.
pub fn delay(
    lists: Lists,
    driver: Place,
    technology: Technology,
    delays: &mut [f64],
) -> Result<usize, Refusal> {
    let Lists {
        pins,
        macros,
        weights,
    } = lists;
    let mut count = UNTOUCHED as usize;
    // SAFETY: as for `graph`.
    let code = unsafe {
        bare::calzundi_delay(
            pins.as_ptr(),
            pins.len(),
            macros.as_ptr(),
            macros.len(),
            weights.x,
            weights.y,
            driver.x,
            driver.y,
            technology.resistance,
            technology.capacitance,
            delays.as_mut_ptr(),
            delays.len(),
            &mut count,
        )
    };
    answer(code, &[count as u64], count)
}

/// Price: the charge, in hundredths of the currency. A band is two numbers, its limit and its rate.
pub fn price(lists: Lists, bands: &[u64]) -> Result<u64, Refusal> {
    let Lists {
        pins,
        macros,
        weights,
    } = lists;
    let mut charge = UNTOUCHED;
    // SAFETY: the library reads the three slices and keeps none.
    let code = unsafe {
        bare::calzundi_price(
            pins.as_ptr(),
            pins.len(),
            macros.as_ptr(),
            macros.len(),
            weights.x,
            weights.y,
            bands.as_ptr(),
            bands.len(),
            &mut charge,
        )
    };
    answer(code, &[charge], charge)
}

/// Write a net file: how many bytes were given.
pub fn write_file(lists: Lists, bytes: &mut [u8]) -> Result<usize, Refusal> {
    let Lists {
        pins,
        macros,
        weights,
    } = lists;
    let mut given = UNTOUCHED as usize;
    // SAFETY: as for `graph`.
    let code = unsafe {
        bare::calzundi_write_file(
            pins.as_ptr(),
            pins.len(),
            macros.as_ptr(),
            macros.len(),
            weights.x,
            weights.y,
            bytes.as_mut_ptr(),
            bytes.len(),
            &mut given,
        )
    };
    answer(code, &[given as u64], given)
}

/// What a read gives: how many pins and macros, and the weights.
#[derive(Clone, Copy, Debug, PartialEq, Eq)]
pub struct Read {
    pub pins: usize,
    pub macros: usize,
    pub weights: Weights,
}

/// Read a net file.
pub fn read_file(bytes: &[u8], pins: &mut [i32], macros: &mut [i32]) -> Result<Read, Refusal> {
    let (mut m, mut k) = (UNTOUCHED as usize, UNTOUCHED as usize);
    let (mut x, mut y) = (UNTOUCHED as i32, UNTOUCHED as i32);
    // SAFETY: as for `graph`.
    let code = unsafe {
        bare::calzundi_read_file(
            bytes.as_ptr(),
            bytes.len(),
            pins.as_mut_ptr(),
            pins.len(),
            macros.as_mut_ptr(),
            macros.len(),
            &mut m,
            &mut k,
            &mut x,
            &mut y,
        )
    };
    let read = Read {
        pins: m,
        macros: k,
        weights: Weights { x, y },
    };
    answer(code, &[m as u64, k as u64, x as u64, y as u64], read)
}
