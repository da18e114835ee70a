/*
 * Routes document 01's third worked net with the library and prints its refined tree as the program `route` does.
 *
 *     gcc -Iinclude examples/third_net.c target/staticlib/libexports.a -o build/third_net && build/third_net
 *     gcc -Iinclude examples/third_net.c -Llib -lcalzundi -o third_net    (in a package)
 */
#include <inttypes.h>
#include <stdio.h>

#include "calzundi.h"

enum { M = 3, K = 0 };

/* `refused` and the number, as route prints it. */
static int refused(int32_t number)
{
    printf("refused %" PRId32 "\n", number);
    return 0;
}

/* What a unit of metal costs along either axis. */
enum { WEIGHT_X = 1, WEIGHT_Y = 1 };

static calzundi_length cost(const int32_t *edge)
{
    calzundi_length across = (calzundi_length)edge[2] - edge[0];
    calzundi_length up = (calzundi_length)edge[3] - edge[1];
    return WEIGHT_X * (across < 0 ? -across : across) + WEIGHT_Y * (up < 0 ? -up : up);
}

int main(void)
{
    const int32_t pins[CALZUNDI_PIN_NUMBERS * M] = {0, 0, 0, 4, 0, 0, 2, 3, 0};
    /* A list of none may be null. */
    const int32_t *macros = NULL;
    int64_t paths[CALZUNDI_PATH_NUMBERS(M)];
    int32_t edges[CALZUNDI_TREE_NUMBERS(M, K)];
    size_t path_count, edge_count;
    calzundi_length terminal, refined, metal;
    int32_t answer;

    answer = calzundi_terminal_tree(pins, CALZUNDI_PIN_NUMBERS * M, macros, 4 * K, WEIGHT_X, WEIGHT_Y, paths, CALZUNDI_PATH_NUMBERS(M),
                                    &path_count, &terminal);
    if (answer != 0)
        return refused(answer);
    answer = calzundi_refined_tree(pins, CALZUNDI_PIN_NUMBERS * M, macros, 4 * K, WEIGHT_X, WEIGHT_Y, edges, CALZUNDI_TREE_NUMBERS(M, K),
                                   &edge_count, &refined, &metal);
    if (answer != 0)
        return refused(answer);

    printf("pins %d macros %d terminal %" PRId64 " refined %" PRId64 " metal %" PRId64 "\n", M, K, terminal, refined, metal);
    for (size_t i = 0; i < edge_count; i++) {
        const int32_t *edge = &edges[4 * i];
        printf("%" PRId32 " %" PRId32 " %" PRId32 " %" PRId32 " %" PRId64 "\n", edge[0], edge[1], edge[2], edge[3], cost(edge));
    }
    return 0;
}
