/* Kinds with sets of withdrawn rows: of every length, and under orders to strike and to restore. */
#include <string.h>

#include "bourascul.h"
#include "kinds.h"
#include "samples.h"

static struct sample sample;

/* No words, one too few, one too many, and more; then each bit from n on, alone and with rows withdrawn. */
void each_set_length(struct trial *t, uint32_t limit)
{
    struct draw *d = &t->draw;
    draw_sample(d, &sample, limit < 100 ? limit : 100);
    index_any(d, &sample);
    size_t words = (sample.n + 31) / 32;
    for (size_t length = 0; length < words + 3; length++) {
        struct lot lot = fair_lot(d, &sample);
        lot.withdrawn_length = length;
        try_searches(t, &lot);
    }
    for (size_t bit = sample.n; bit < 32 * words; bit++) {
        struct lot lot = fair_lot(d, &sample);
        sample.withdrawn[bit / 32] |= 1u << bit % 32;
        try_searches(t, &lot);
    }
}

/* ---- Orders ---- */

enum {
    ORDERS = 40 /* of each office */
};

struct order {
    bool strike;
    uint32_t row;
};

/* A lot of one order to the sample's set. */
static struct lot order_lot(uint32_t told, size_t length, uint32_t row)
{
    struct lot lot;
    memset(&lot, 0, sizeof lot);
    lot.withdrawn = sample.withdrawn;
    lot.withdrawn_length = length;
    lot.told = told;
    lot.row = row;
    return lot;
}

/* One order, tried on the sample's set and then carried out there by the library; and on the truths. */
static void carry_out(struct trial *t, struct order order, bool *truth)
{
    struct lot lot = order_lot(sample.n, (sample.n + 31) / 32, order.row);
    if (order.strike) {
        try_strike(t, &lot);
        bourascul_strike(sample.withdrawn, lot.withdrawn_length, sample.n, order.row);
    } else {
        try_restore(t, &lot);
        bourascul_restore(sample.withdrawn, lot.withdrawn_length, sample.n, order.row);
    }
    if (order.row < sample.n)
        truth[order.row] = order.strike;
}

/* Orders of two offices, mixed so that each office's own stand in its own order. */
static void carry_out_mixed(struct trial *t, struct order offices[2][ORDERS], bool *truth)
{
    for (uint32_t at[2] = { 0, 0 }; at[0] < ORDERS || at[1] < ORDERS;) {
        uint32_t from = at[0] == ORDERS ? 1 : at[1] == ORDERS ? 0 : draw_below(&t->draw, 2);
        carry_out(t, offices[from][at[from]++], truth);
    }
}

/* Each row's bit is its truth. */
static void hold_to_truths(struct trial *t, const bool *truth)
{
    struct lot lot = order_lot(sample.n, (sample.n + 31) / 32, 0);
    for (uint32_t i = 0; i < 32 * lot.withdrawn_length; i++)
        if ((sample.withdrawn[i / 32] >> i % 32 & 1) != truth[i]) {
            tell_difference(t, &lot, "strike and restore", "a row's bit is not what the orders made it");
            return;
        }
}

/* Even rows are the one office's and odd ones the other's; or all orders are strikes, of any row. Rows beyond the last are refused on the way. */
static void draw_orders(struct draw *d, struct order offices[2][ORDERS])
{
    bool apart = draw_one_in(d, 2);
    for (uint32_t k = 0; k < 2; k++)
        for (uint32_t i = 0; i < ORDERS; i++) {
            uint32_t row = draw_one_in(d, 12) ? sample.n + draw_below(d, 40) : draw_below(d, sample.n + 1);
            offices[k][i] = (struct order){ !apart || draw_one_in(d, 2), apart && row < sample.n ? row / 2 * 2 + k : row };
        }
}

/* The orders mixed in one way, from the sample's set on, against the truths of its rows. */
static void obey_all(struct trial *t, struct order offices[2][ORDERS])
{
    static bool truth[32 * SET_WORDS];
    for (uint32_t i = 0; i < 32 * SET_WORDS; i++)
        truth[i] = (sample.withdrawn[i / 32] >> i % 32 & 1) != 0;
    carry_out_mixed(t, offices, truth);
    hold_to_truths(t, truth);
}

/* Mixed in two ways the orders leave one set. Then both searches with what they left. */
void mixed_orders(struct trial *t, uint32_t limit)
{
    uint32_t before[SET_WORDS], once[SET_WORDS];
    struct order offices[2][ORDERS];
    struct draw *d = &t->draw;
    draw_sample(d, &sample, limit < 100 ? limit : 100);
    index_any(d, &sample);
    struct lot lot = fair_lot(d, &sample);
    draw_orders(d, offices);
    memcpy(before, sample.withdrawn, sizeof before);
    obey_all(t, offices);
    memcpy(once, sample.withdrawn, sizeof once);
    memcpy(sample.withdrawn, before, sizeof before);
    obey_all(t, offices);
    if (memcmp(once, sample.withdrawn, sizeof once) != 0)
        tell_difference(t, &lot, "strike and restore", "the same orders of two offices, mixed otherwise, leave another set");
    try_searches(t, &lot);
}

/* Sets of other lengths than the rows', bits beyond them and rows beyond them, each alone and together; and numbers of rows near the end of 32
   bits. */
void order_refusals(struct trial *t, uint32_t limit)
{
    static const uint32_t far[] = { 1048576, 1048577, 0x7fffffffu, 0x80000000u, UINT32_MAX - 31, UINT32_MAX - 30, UINT32_MAX - 1, UINT32_MAX };
    struct draw *d = &t->draw;
    draw_sample(d, &sample, limit < 70 ? limit : 70);
    uint32_t n = sample.n, words = (n + 31) / 32;
    const uint32_t rows[] = { 0, n - 1, n, n + 1, 32 * words - 1, 32 * words, 32 * words + 31, draw_below(d, n + 1), 1048576, UINT32_MAX };
    for (size_t length = 0; length < words + 3; length++)
        for (size_t k = 0; k < sizeof rows / sizeof *rows; k++) {
            draw_withdrawn(d, &sample);
            if (draw_one_in(d, 3))
                sample.withdrawn[draw_below(d, words + 1)] |= 1u << draw_below(d, 32);
            struct lot lot = order_lot(n, length, rows[k]);
            try_strike(t, &lot);
            try_restore(t, &lot);
        }
    for (size_t k = 0; k < sizeof far / sizeof *far; k++)
        for (size_t length = 0; length < 3; length++) {
            struct lot lot = order_lot(far[k], length, draw_one_in(d, 2) ? far[k] : draw_below(d, 32));
            try_strike(t, &lot);
            try_restore(t, &lot);
        }
}
