/*
 * calzundi.h: the tree router as a static library, for C and C++ on x86-64.
 *
 * Link libcalzundi.a of a package, or in the repository target/staticlib/libexports.a, which `tools/library` makes once every
 * function in it is proved. The library keeps no state, allocates nothing and prints nothing.
 *
 *
 * A net
 *
 * A net is two lists of 32-bit numbers and two weights. `pins` has three numbers for each of its m pins (x, y, load),
 * `macros` four for each of its k macros (left, bottom, right, top). A load is in units of capacitance, 0 at least and
 * 1,000,000 at most; no tree, wire, price or distance depends on it; delays do, and a net file keeps it. Any two lists
 * of any length may be handed over. A list is a pointer and the count of numbers behind it, not of entries: three pins
 * are nine numbers. Write n for m + 4k. The weights, weight_x and weight_y, are what a unit of metal costs along either
 * axis: whole numbers from 1 to 8, 1 and 1 for a machine whose stage is as quick in y as in x. Any two may be handed
 * over.
 *
 *
 * Cost and metal
 *
 * The cost of two places is their distance in x times weight_x plus that in y times weight_y. Trees are chosen by cost, and what is called
 * a length of a path or a total is cost. Metal to lay is plain length, whatever the weights; with weights 1 and 1 both are the same.
 *
 *
 * What is lent
 *
 * Answers go to space that the caller lends, again a pointer and a count of numbers. Each operation below says how much it asks for; the
 * macros CALZUNDI_..._NUMBERS work it out. More may be lent. Counts, totals, metal, the charge and a file's weights go through a pointer
 * each.
 *
 *
 * Answers
 *
 * Every operation returns 0, or the number of a refusal, the first of those listed for it that applies. The answer of an allowed net is
 * the same for every order of its lists; only a net file keeps that order, and a best tree may then be another of the same cost.
 *
 *   0          The answer stands at the front of each lent space, and the counts say how many entries it has (not how many numbers).
 *              Lent space past the answer is as it was.
 *   a refusal  Nothing lent is altered, counts and the like included.
 *
 *
 * What the caller sees to
 *
 *   null       A list or a lent space with a count of 0 may be null, or any other address: it is not followed, and the call answers as
 *              for an empty one. No other pointer is null; those to counts and the like never are, whatever the answer.
 *   length     Behind every other pointer stands as much as its count says. Nothing past it is touched, and lists are only read. What
 *              lent space held before does not matter.
 *   alignment  Every other pointer is aligned for its type: 4 bytes for int32_t and uint32_t, 8 for int64_t, uint64_t, double and size_t,
 *              1 for bytes. One that is not is outside what is proved, also where x86-64 lets it pass.
 *   overlap    What is lent to be written, counts and the like included, overlaps nothing else that is handed over. Lists may overlap
 *              each other.
 *   threads    While a call runs, nobody else writes its lists, and nobody else reads or writes what is lent to it. Calls at the same
 *              time, also on the same lists, do not disturb each other, since the library keeps no state.
 *   stack      The router's tables are local: a call has CALZUNDI_STACK_BYTES of stack to itself, or as much as CALZUNDI_STACK_... says of
 *              its operation, which was measured and is not proved.
 *
 * No code tests any of this: a call that breaks it is undefined.
 */
#ifndef CALZUNDI_H
#define CALZUNDI_H

/* The version, of this header: the tools take it from this line, and calzundi_version() says that of the library. Each landing raises the
 * second number; the last of the fourteen change requests raised the first. */
#define CALZUNDI_VERSION "2.10"

#include <stddef.h>
#include <stdint.h>

#ifdef __cplusplus
extern "C" {
#endif

/* A net has 1 to 128 pins and 0 to 128 macros, with coordinates from -1,000,000 to 1,000,000, loads from 0 to 1,000,000 and weights
 * from 1 to 8. */
#define CALZUNDI_PINS 128
#define CALZUNDI_MACROS 128
#define CALZUNDI_COORDINATE 1000000
#define CALZUNDI_WEIGHT 8
#define CALZUNDI_LOAD 1000000

/* Numbers of a pin in a list: x, y, load. */
#define CALZUNDI_PIN_NUMBERS 3

/* The stack that a call has to itself, whichever it is. */
#define CALZUNDI_STACK_BYTES (512 * 1024)

/* The same of each operation: what was measured on nets of 128 pins and 128 macros, and some KiB to spare. What interrupts and signal
 * handlers take on the same stack comes on top. */
#define CALZUNDI_STACK_CHECK (4 * 1024)
#define CALZUNDI_STACK_GRAPH (16 * 1024)
#define CALZUNDI_STACK_TERMINAL_TREE (224 * 1024)
#define CALZUNDI_STACK_REFINED_TREE (332 * 1024)
#define CALZUNDI_STACK_SLID_TREE CALZUNDI_STACK_BYTES
#define CALZUNDI_STACK_WIRES (332 * 1024)
#define CALZUNDI_STACK_BEST_TREE (104 * 1024)
#define CALZUNDI_STACK_LOWER_BOUND (24 * 1024)
#define CALZUNDI_STACK_GRID_DISTANCES (40 * 1024)
#define CALZUNDI_STACK_DELAY (348 * 1024)
#define CALZUNDI_STACK_PRICE (332 * 1024)
#define CALZUNDI_STACK_CHECK_TREE (64 * 1024)
#define CALZUNDI_STACK_WRITE_FILE (16 * 1024)
#define CALZUNDI_STACK_READ_FILE (36 * 1024)

/* Distances on the grid are for nets of up to 16 pins and 16 macros. */
#define CALZUNDI_GRID_PINS 16
#define CALZUNDI_GRID_MACROS 16

/* A best tree is for nets of up to 5 pins and 16 macros, with so many numbers of 32 bits as work. */
#define CALZUNDI_BEST_PINS 5
#define CALZUNDI_BEST_MACROS 16
#define CALZUNDI_BEST_WORK 65536

/* A lower bound is for every net, with so many numbers of 32 bits and of 64 bits as work, 3.4 MiB in all. */
#define CALZUNDI_BOUND_LEFT 589824
#define CALZUNDI_BOUND_ROWS 147456

/* The check of a bought-in tree takes up to 1,535 edges. */
#define CALZUNDI_BOUGHT_EDGES 1535

/* Numbers to lend for a net of m pins and k macros: n = m + 4k, and then for each operation. */
#define CALZUNDI_POINTS(m, k) ((m) + 4 * (k))
#define CALZUNDI_VERTEX_NUMBERS(m, k) (2 * CALZUNDI_POINTS(m, k))
#define CALZUNDI_EDGE_NUMBERS(m, k) (16 * CALZUNDI_POINTS(m, k))
#define CALZUNDI_PATH_NUMBERS(m) (5 * (m))
#define CALZUNDI_TREE_NUMBERS(m, k) (4 * (CALZUNDI_POINTS(m, k) + (m)))
#define CALZUNDI_SLID_NUMBERS(m, k) (8 * (CALZUNDI_POINTS(m, k) + (m)))
#define CALZUNDI_WIRE_NUMBERS(m, k) (8 * (CALZUNDI_POINTS(m, k) + (m)))
#define CALZUNDI_DISTANCE_NUMBERS(m) ((m) * (m))
#define CALZUNDI_DELAY_NUMBERS(m) (m)
#define CALZUNDI_BEST_NUMBERS(m, k) (4 * ((m) + 2 * (k)) * ((m) + 2 * (k)))

/* A net file is 1 to 10 blocks of 512 bytes: a head, a block for each 60 pins begun, or for each 40 where a pin has a load above 0, and one
 * for each 30 macros begun. */
#define CALZUNDI_BLOCK_BYTES 512
#define CALZUNDI_FILE_BYTES(m, k) (CALZUNDI_BLOCK_BYTES * (1 + ((m) + 59) / 60 + ((k) + 29) / 30))
#define CALZUNDI_LOADED_FILE_BYTES(m, k) (CALZUNDI_BLOCK_BYTES * (1 + ((m) + 39) / 40 + ((k) + 29) / 30))
#define CALZUNDI_LONGEST_FILE CALZUNDI_LOADED_FILE_BYTES(CALZUNDI_PINS, CALZUNDI_MACROS)

/* Numbers to lend for reading any net file. */
#define CALZUNDI_READ_PIN_NUMBERS (CALZUNDI_PIN_NUMBERS * CALZUNDI_PINS)
#define CALZUNDI_READ_MACRO_NUMBERS (4 * CALZUNDI_MACROS)

/* The numbers of refusals. */
enum calzundi_refusal {
    CALZUNDI_LENGTH = 1,            /* the file is not 1 to 10 whole blocks */
    CALZUNDI_SUMS = 2,              /* a block's word 126 or 127 is wrong */
    CALZUNDI_LAYOUT = 3,            /* anything else in the file's layout, the head's counts and weights included */
    CALZUNDI_PIN_LIST = 11,         /* the pin list isn't whole threes, or m is 0 or above 128 */
    CALZUNDI_MACRO_LIST = 12,       /* the macro list isn't whole fours, or k is above 128 */
    CALZUNDI_OUT_OF_RANGE = 13,     /* a coordinate or a load is out of range */
    CALZUNDI_FLAT_MACRO = 14,       /* a macro's left is not below its right, or its bottom not below its top */
    CALZUNDI_PIN_TWICE = 15,        /* two pins are at one place */
    CALZUNDI_MACROS_OVERLAP = 16,   /* two macros' interiors meet; touching is allowed */
    CALZUNDI_PIN_IN_INTERIOR = 17,  /* a pin is in a macro's interior; on its boundary is allowed */
    CALZUNDI_WEIGHTS = 18,          /* a weight is below 1 or above 8 */
    CALZUNDI_SPACE = 21,            /* too little space is lent */
    CALZUNDI_BANDS = 31,            /* the list of bands is odd or empty, or a rate in it is above 1,000,000 */
    CALZUNDI_REACH = 32,            /* no band's limit reaches the metal */
    CALZUNDI_EDGE_LIST = 33,        /* the edge list isn't whole fours, has more than 1,535 edges, or a coordinate is out of range */
    CALZUNDI_EDGE_NOT_CLEAR = 34,   /* an edge has equal ends, or ends that are not clear of each other */
    CALZUNDI_NOT_A_TREE = 35,       /* the edges and the pins are not one tree, or a point with a single edge is no pin */
    CALZUNDI_GRID_SIZE = 36,        /* above 16 pins or 16 macros, for distances on the grid */
    CALZUNDI_BAND_ORDER = 37,       /* a band's limit is not above the one before it, or its rate is below */
    CALZUNDI_TECHNOLOGY = 38,       /* a resistance or capacitance is not finite, or not above zero */
    CALZUNDI_DRIVER = 39,           /* the driver is no pin */
    CALZUNDI_DELAY_NOT_FINITE = 40, /* a delay is not finite */
    CALZUNDI_BEST_SIZE = 41         /* above 5 pins or 16 macros, for a best tree */
};

/*
 * What a refusal's number means, in words for people; for 0 "allowed", and for a number that is none "no refusal has this number". It is
 * here and not in the library, which has no words in it. The words are those of the Rust crate and of the program calzundi.
 */
static inline const char *calzundi_refusal_text(int32_t number)
{
    switch (number) {
    case 0: return "allowed";
    case CALZUNDI_LENGTH: return "the file is not 1 to 10 whole blocks";
    case CALZUNDI_SUMS: return "a block's word 126 or 127, its sums, is wrong";
    case CALZUNDI_LAYOUT: return "the layout is not a net file's";
    case CALZUNDI_PIN_LIST: return "there is no pin, there are more than 128, or the list isn't whole threes";
    case CALZUNDI_MACRO_LIST: return "there are more than 128 macros, or the list isn't whole fours";
    case CALZUNDI_OUT_OF_RANGE: return "a coordinate is not from -1000000 to 1000000, or a load not from 0 to 1000000";
    case CALZUNDI_FLAT_MACRO: return "a macro's left is not below its right, or its bottom not below its top";
    case CALZUNDI_PIN_TWICE: return "two pins are at one place";
    case CALZUNDI_MACROS_OVERLAP: return "two macros' interiors meet";
    case CALZUNDI_PIN_IN_INTERIOR: return "a pin is in a macro's interior";
    case CALZUNDI_WEIGHTS: return "a weight is not from 1 to 8";
    case CALZUNDI_SPACE: return "too little space was lent";
    case CALZUNDI_BANDS: return "there is no band, the list isn't whole pairs, or a rate is above 1000000";
    case CALZUNDI_REACH: return "no band's limit reaches the metal";
    case CALZUNDI_EDGE_LIST:
        return "there are more than 1535 edges, the list isn't whole fours, or a coordinate is not from -1000000 to 1000000";
    case CALZUNDI_EDGE_NOT_CLEAR: return "an edge has equal ends, or ends that are not clear of each other";
    case CALZUNDI_NOT_A_TREE: return "the edges and the pins are not one tree, or a point with a single edge is no pin";
    case CALZUNDI_GRID_SIZE: return "there are more than 16 pins or more than 16 macros";
    case CALZUNDI_BAND_ORDER: return "a band's limit is not above the one before it, or its rate is below";
    case CALZUNDI_TECHNOLOGY: return "a resistance or capacitance is not finite, or not above zero";
    case CALZUNDI_DRIVER: return "the driver is no pin";
    case CALZUNDI_DELAY_NOT_FINITE: return "a delay is not finite";
    case CALZUNDI_BEST_SIZE: return "there are more than 5 pins or more than 16 macros";
    default: return "no refusal has this number";
    }
}

/* A band of a price list is two numbers of 64 bits, its limit and its rate; a rate is at most this. */
#define CALZUNDI_RATE 1000000

/* Lengths, totals, metal and the numbers lent for the terminal tree and for distances are 64 bits wide. */
typedef int64_t calzundi_length;

/*
 * The library's version: a thousand times the first number and the second, 2010 for 2.10.
 */
uint32_t calzundi_version(void);

/*
 * Since which version lists mean what is said above: a pin was two numbers before 1.12. Whatever is compiled with this header refers to the
 * name, so that it is not linked with a library whose lists mean something else: the linker then says that this name is not defined. The
 * name is another one as soon as the meaning of a list is. It gives the numbers of a pin. A program that takes bounds and words from
 * here and links no library defines CALZUNDI_WITHOUT_LIBRARY before it includes this.
 */
uint32_t calzundi_lists_since_1_12(void);
#if defined(__GNUC__) && !defined(CALZUNDI_WITHOUT_LIBRARY)
#if defined(__has_attribute)
#if __has_attribute(__retain__)
__attribute__((__retain__)) /* else the linker may drop it unread, with --gc-sections */
#endif
#endif
__attribute__((__used__)) static uint32_t (*const calzundi_lists_meant)(void) = calzundi_lists_since_1_12;
#endif

/*
 * Check a net: 0 where it is allowed.
 *
 * Refusals: 11 to 18, in this order, each for the whole net before the next.
 */
int32_t calzundi_check(const int32_t *pins, size_t pin_numbers, const int32_t *macros, size_t macro_numbers, int32_t weight_x,
                       int32_t weight_y);

/*
 * Graph: the spanning graph's vertices and edges, each in order.
 *
 * vertices      lent, at least CALZUNDI_VERTEX_NUMBERS(m, k); a vertex is two numbers, x and y
 * edges         lent, at least CALZUNDI_EDGE_NUMBERS(m, k); an edge is four, its smaller place first
 * vertex_count  how many vertices were given
 * edge_count    how many edges were given
 *
 * Refusals: 11 to 18, then 21.
 */
int32_t calzundi_graph(const int32_t *pins, size_t pin_numbers, const int32_t *macros, size_t macro_numbers, int32_t weight_x,
                       int32_t weight_y, int32_t *vertices, size_t vertex_numbers, int32_t *edges, size_t edge_numbers,
                       size_t *vertex_count, size_t *edge_count);

/*
 * Terminal tree: the m - 1 terminal paths that join all pins, in the order kept.
 *
 * paths  lent, at least CALZUNDI_PATH_NUMBERS(m) of 64 bits; a path is five, the four of its bridge and its length
 * count  how many paths were given
 * total  the sum of their lengths
 *
 * Refusals: 11 to 18, then 21.
 */
int32_t calzundi_terminal_tree(const int32_t *pins, size_t pin_numbers, const int32_t *macros, size_t macro_numbers,
                               int32_t weight_x, int32_t weight_y, int64_t *paths, size_t path_numbers, size_t *count,
                               calzundi_length *total);

/*
 * Refined tree: its edges in order.
 *
 * edges  lent, at least CALZUNDI_TREE_NUMBERS(m, k); an edge is four numbers, its smaller place first
 * count  how many edges were given
 * total  the sum of their costs
 * metal  the sum of their plain lengths, the metal to lay
 *
 * Refusals: 11 to 18, then 21.
 */
int32_t calzundi_refined_tree(const int32_t *pins, size_t pin_numbers, const int32_t *macros, size_t macro_numbers,
                              int32_t weight_x, int32_t weight_y, int32_t *edges, size_t edge_numbers, size_t *count,
                              calzundi_length *total, calzundi_length *metal);

/*
 * Slid tree: the refined tree with its slanted edges bent, and its bars, connected edges on one line, moved where that saves; its edges
 * in order. It joins all pins as one tree, enters no interior and costs no more than the refined tree. Each edge is along one axis, a wire
 * as it stands. Only where both places for some slanted edge's bend are taken is the refined tree given back as it was; its wires are then
 * those of calzundi_wires. To draw each edge from its smaller place along x and then along y is right in both cases.
 *
 * edges  lent, at least CALZUNDI_SLID_NUMBERS(m, k); an edge is four numbers, its smaller place first
 * count  how many edges were given
 * total  the sum of their costs
 * metal  the sum of their plain lengths, the metal to lay
 *
 * Refusals: 11 to 18, then 21.
 */
int32_t calzundi_slid_tree(const int32_t *pins, size_t pin_numbers, const int32_t *macros, size_t macro_numbers,
                           int32_t weight_x, int32_t weight_y, int32_t *edges, size_t edge_numbers, size_t *count,
                           calzundi_length *total, calzundi_length *metal);

/*
 * Best tree: a cheapest tree along the grid of all x and all y values of pins and macro sides, its edges in order. No metal along
 * the two axes that keeps out of the macros' interiors joins all pins for less, along that grid or off it, on the die or off it, in whole
 * units or in fractions: so the refined tree, the slid tree and any list that calzundi_check_tree passes cost as much or more. Which tree
 * is given, where several cost the same, is left to the library; what it costs is fixed. Its edges are along one axis, each a wire as it
 * stands, and the check of bought-in trees passes it.
 *
 * work   lent, at least CALZUNDI_BEST_WORK of 32 bits, whatever they hold; after a success the first CALZUNDI_BEST_WORK are 0 and any
 *        others as they were, after a refusal all are as they were
 * edges  lent, at least CALZUNDI_BEST_NUMBERS(m, k); an edge is four numbers, its smaller place first
 * count  how many edges were given
 * total  the sum of their costs
 * metal  the sum of their plain lengths, the metal to lay
 *
 * Refusals: 11 to 18, then 41, then 21.
 */
int32_t calzundi_best_tree(const int32_t *pins, size_t pin_numbers, const int32_t *macros, size_t macro_numbers,
                           int32_t weight_x, int32_t weight_y, uint32_t *work, size_t work_numbers, int32_t *edges,
                           size_t edge_numbers, size_t *count, calzundi_length *total, calzundi_length *metal);

/*
 * Lower bound: a cost that no metal along the two axes undercuts, in steps of a unit, which keeps out of the macros' interiors and joins
 * all pins, on the die or off it; so the refined tree, the slid tree, every best tree and any list that calzundi_check_tree passes cost
 * as much or more, and one that costs just as much is a cheapest. It is one number, the same for every order of the lists and whatever
 * the loads. With weights 1 and 1 it is a length. It is for nets of every size, and takes much longer than a tree: some seconds on the
 * largest.
 *
 * left   lent, at least CALZUNDI_BOUND_LEFT of 32 bits, whatever they hold
 * rows   lent, at least CALZUNDI_BOUND_ROWS of 64 bits, whatever they hold; of both, after a success the first so many are 0 and any
 *        others as they were, after a refusal all are as they were
 * bound  the bound, in cost
 *
 * Refusals: 11 to 18, then 21.
 */
int32_t calzundi_lower_bound(const int32_t *pins, size_t pin_numbers, const int32_t *macros, size_t macro_numbers,
                             int32_t weight_x, int32_t weight_y, uint32_t *left, size_t left_numbers, uint64_t *rows,
                             size_t row_numbers, uint64_t *bound);

/*
 * Wires: the refined tree as it is drawn, edge after edge in their order. An edge is drawn from its smaller place along
 * x and then along y, a wire each; a wire without length is not given.
 *
 * wires  lent, at least CALZUNDI_WIRE_NUMBERS(m, k), four numbers a wire: x and y of where it is drawn from, then of
 *        where it is drawn to
 * count  how many wires were given
 *
 * Refusals: 11 to 18, then 21.
 */
int32_t calzundi_wires(const int32_t *pins, size_t pin_numbers, const int32_t *macros, size_t macro_numbers, int32_t weight_x,
                       int32_t weight_y, int32_t *wires, size_t wire_numbers, size_t *count);

/*
 * Distances on the grid. Its lines are at every x and every y at which a pin or a macro's side stands; neighbours among
 * their crossings are joined unless the segment between them meets an interior. The table has the cheapest cost along
 * the grid between every two pins. Whoever goes from pin to pin in steps of one unit, none of them through an interior,
 * pays no less, on the die or off it; nor does any way along the spanning graph cost less.
 *
 * table  lent, at least CALZUNDI_DISTANCE_NUMBERS(m) of 64 bits: m rows of m numbers, rows and columns in the order of places (by x, then
 *        by y), the same both ways and 0 from each pin to itself
 * count  how many numbers were given, m times m
 *
 * Refusals: 11 to 18, then 36, then 21.
 */
int32_t calzundi_grid_distances(const int32_t *pins, size_t pin_numbers, const int32_t *macros, size_t macro_numbers,
                                int32_t weight_x, int32_t weight_y, int64_t *table, size_t table_numbers, size_t *count);

/*
 * Delay: the Elmore delay of the refined tree from a driver to each pin. The tree hangs from the driver. An edge has
 * the technology's resistance and capacitance, each times its plain length. The capacitance of a point starts with its
 * load, or with 0 where it is no pin; then for each child, in the order of places, (the child's capacitance plus the
 * edge's) is added to it. The delay of a child is that of its parent plus the edge's resistance times (half the edge's
 * capacitance plus the child's). Every sum and every product is rounded by itself, in this order, as IEEE 754 has it
 * for 64 bits and to the nearest: the caller has not set another rounding, and subnormal numbers are kept.
 *
 * driver_x, driver_y       the place of the driver, which is a pin; its own delay is 0
 * resistance, capacitance  the technology, for each unit of length: both finite and above zero
 * delays                   lent, at least CALZUNDI_DELAY_NUMBERS(m) of 64-bit floats: a delay for each pin in the order of places (by x,
 *                          then by y)
 * count                    how many delays were given, m
 *
 * Refusals: 11 to 18, then 21, then 38, then 39, then 40.
 */
int32_t calzundi_delay(const int32_t *pins, size_t pin_numbers, const int32_t *macros, size_t macro_numbers, int32_t weight_x,
                       int32_t weight_y, int32_t driver_x, int32_t driver_y, double resistance, double capacitance, double *delays,
                       size_t delay_numbers, size_t *count);

/*
 * Price: what a bureau charges for the metal to lay, which is the sum of the refined tree's plain lengths.
 *
 * bands   a list, two numbers for each band: its limit, in units of metal, and its rate, in hundredths of the currency per 1,000 units.
 *         Limits may be any numbers of 64 bits. Down the list they rise strictly, and rates never fall.
 * charge  metal times rate over 1,000 at the first band of the list whose limit is not below the metal, in hundredths of the currency,
 *         to the nearest; half way between two hundredths, the even one
 *
 * By one list more metal is never charged less.
 *
 * Refusals: 11 to 18, then 31, then 37, then 32, each for the whole list before the next.
 */
int32_t calzundi_price(const int32_t *pins, size_t pin_numbers, const int32_t *macros, size_t macro_numbers, int32_t weight_x,
                       int32_t weight_y, const uint64_t *bands, size_t band_numbers, uint64_t *charge);

/*
 * Check a bought-in tree: 0 where it passes for the net.
 *
 * edges  a list, four numbers for each edge: x and y of its ends, given from either end and in any order, at most CALZUNDI_BOUGHT_EDGES
 * cost   what the edges cost together
 * metal  the sum of their plain lengths
 *
 * It passes exactly when the pins and the ends of its edges are the points of one tree, with no edge given twice, the
 * ends of each edge are different and clear of each other, and no point but a pin has a single edge. With a single pin
 * only the empty list passes. Every refined tree and every slid tree passes.
 *
 * Refusals: 11 to 18, then 33, then 34, then 35, each for the whole list before the next.
 */
int32_t calzundi_check_tree(const int32_t *pins, size_t pin_numbers, const int32_t *macros, size_t macro_numbers, int32_t weight_x,
                            int32_t weight_y, const int32_t *edges, size_t edge_numbers, calzundi_length *cost,
                            calzundi_length *metal);

/*
 * Write a net file, which keeps the order of both lists. Weights of 1 are stored as a file without weights has them, and loads of 0 as one
 * without loads.
 *
 * bytes  lent, at least CALZUNDI_FILE_BYTES(m, k), or CALZUNDI_LOADED_FILE_BYTES(m, k) where a pin has a load above 0
 * given  how many bytes the file has
 *
 * Refusals: 11 to 18, then 21.
 */
int32_t calzundi_write_file(const int32_t *pins, size_t pin_numbers, const int32_t *macros, size_t macro_numbers,
                            int32_t weight_x, int32_t weight_y, uint8_t *bytes, size_t byte_count, size_t *given);

/*
 * Read a net file: the two lists in the order in which they were written, three numbers a pin whatever the file. Every file that is
 * accepted holds an allowed net, and is the one that calzundi_write_file makes of it.
 *
 * pins    lent, at least CALZUNDI_READ_PIN_NUMBERS, whatever the file
 * macros  lent, at least CALZUNDI_READ_MACRO_NUMBERS, whatever the file
 * m, k    how many pins and macros were given
 * weight_x, weight_y  the weights
 *
 * Refusals: 21 first, then 1, 2, 3, then 11 to 17; never 18.
 */
int32_t calzundi_read_file(const uint8_t *bytes, size_t byte_count, int32_t *pins, size_t pin_numbers, int32_t *macros,
                           size_t macro_numbers, size_t *m, size_t *k, int32_t *weight_x, int32_t *weight_y);

#ifdef __cplusplus
}
#endif

#endif
