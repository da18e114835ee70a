/*
 * Routes a net file: reads it, prints the wires of its net as they are drawn, and writes the net back, which gives the same bytes.
 * Without a file it takes a net of its own, with a macro in the way. A refusal is said in words.
 *
 *     gcc -Iinclude examples/net_file.c target/staticlib/libexports.a -o build/net_file && build/net_file examples/files/eight-pins.net
 *     gcc -Iinclude examples/net_file.c -Llib -lcalzundi -o net_file    (in a package)
 */
#include <inttypes.h>
#include <stdio.h>
#include <string.h>

#include "calzundi.h"

/* A net and the space that a call may be lent, each as large as any net asks for. */
static int32_t pins[CALZUNDI_READ_PIN_NUMBERS];
static int32_t macros[CALZUNDI_READ_MACRO_NUMBERS];
static int32_t wires[CALZUNDI_WIRE_NUMBERS(CALZUNDI_PINS, CALZUNDI_MACROS)];
static uint8_t file[CALZUNDI_LONGEST_FILE + 1];
static uint8_t again[CALZUNDI_LONGEST_FILE];

static int refused(int32_t number)
{
    fprintf(stderr, "refused %" PRId32 ": %s\n", number, calzundi_refusal_text(number));
    return 1;
}

/* The bytes of a file, or of a net with two pins on either side of a macro, where a unit upwards costs three across. */
static int32_t get(int words, char **word, size_t *length)
{
    static const int32_t two_pins[2 * CALZUNDI_PIN_NUMBERS] = {0, 0, 0, 10, 0, 0};
    static const int32_t one_macro[4] = {4, -2, 6, 3};
    FILE *stream;

    if (words < 2)
        return calzundi_write_file(two_pins, 2 * CALZUNDI_PIN_NUMBERS, one_macro, 4, 1, 3, file, sizeof file, length);
    stream = fopen(word[1], "rb");
    *length = stream == NULL ? 0 : fread(file, 1, sizeof file, stream);
    if (stream != NULL)
        fclose(stream);
    return 0;
}

int main(int words, char **word)
{
    size_t length, m, k, count, given;
    int32_t answer, x, y;

    answer = get(words, word, &length);
    if (answer != 0)
        return refused(answer);
    answer = calzundi_read_file(file, length, pins, CALZUNDI_READ_PIN_NUMBERS, macros, CALZUNDI_READ_MACRO_NUMBERS, &m, &k, &x, &y);
    if (answer != 0)
        return refused(answer);
    answer = calzundi_wires(pins, CALZUNDI_PIN_NUMBERS * m, macros, 4 * k, x, y, wires, CALZUNDI_WIRE_NUMBERS(m, k), &count);
    if (answer != 0)
        return refused(answer);
    for (size_t i = 0; i < count; i++) {
        const int32_t *wire = &wires[4 * i];
        printf("%" PRId32 " %" PRId32 " %" PRId32 " %" PRId32 "\n", wire[0], wire[1], wire[2], wire[3]);
    }

    answer = calzundi_write_file(pins, CALZUNDI_PIN_NUMBERS * m, macros, 4 * k, x, y, again, sizeof again, &given);
    if (answer != 0)
        return refused(answer);
    if (given != length || memcmp(file, again, length) != 0) {
        fprintf(stderr, "the file was not written back as it was read\n");
        return 1;
    }
    return 0;
}
