/* A planter's days as a machine of five states. All whole numbers, so that no compiler rounds the season differently. */
#include "minutes.h"

#include "draw.h"

const char *const minute_names[MINUTE_COLUMNS] = { "speed", "shaft_turns", "hopper_weight", "fan_pressure", "heading", "tender_distance" };
const char *const activity_names[ACTIVITIES] = { "working", "turning", "refilling", "waiting", "travelling" };

enum {
    HOPPER_FULL = 1800,
    HOPPER_LOW = 140,
    SEED_A_MINUTE = 26,
    REFILL_A_MINUTE = 520,
    FAN_WORKING = 420,
    FAN_IDLE = 90,
    FIELD_ROW_MINUTES = 7,
    HEADING = 4 /* the column that goes round */
};

/* The machine as it stands: `left` minutes of the present activity, where in the field it is, the rows' heading, and the road's bearing. */
struct planter {
    struct draw draw;
    enum activity activity, then;
    uint32_t left, hopper, along, pass, passes, heading, bearing, tender_at;
};

/* Around `middle`, nearer values more often. */
static uint32_t about(struct draw *d, uint32_t middle, uint32_t spread)
{
    uint32_t sum = draw_below(d, spread + 1) + draw_below(d, spread + 1);
    return middle + sum > spread ? middle + sum - spread : 0;
}

static uint32_t turned(uint32_t heading, uint32_t by)
{
    return (heading + by) % 3600;
}

static void enter(struct planter *p, enum activity activity, uint32_t minutes)
{
    p->activity = activity;
    p->left = minutes;
}

static void new_field(struct planter *p)
{
    p->passes = 24 + draw_below(&p->draw, 40);
    p->pass = 0;
    p->along = 0;
    p->heading = draw_below(&p->draw, 3600);
    p->tender_at = draw_below(&p->draw, 30);
    p->then = WORKING;
    p->bearing = p->heading;
    enter(p, TRAVELLING, 4 + draw_below(&p->draw, 14));
}

/* An empty hopper sends the planter to the tender, which is not always there. */
static void go_for_seed(struct planter *p)
{
    p->then = draw_one_in(&p->draw, 3) ? WAITING : REFILLING;
    enter(p, TRAVELLING, 1 + draw_below(&p->draw, 3));
}

static void after_working(struct planter *p)
{
    p->pass++;
    p->along = 0;
    if (p->pass >= p->passes)
        new_field(p);
    else if (p->hopper < HOPPER_LOW + FIELD_ROW_MINUTES * SEED_A_MINUTE)
        go_for_seed(p);
    else
        enter(p, TURNING, 1 + draw_one_in(&p->draw, 4));
}

static void next_activity(struct planter *p)
{
    switch (p->activity) {
    case WORKING: after_working(p); break;
    case TURNING:
        p->heading = turned(p->heading, 1800);
        enter(p, WORKING, FIELD_ROW_MINUTES - 1 + draw_below(&p->draw, 3));
        break;
    case REFILLING:
        p->heading = turned(p->heading, 1800);
        enter(p, WORKING, FIELD_ROW_MINUTES);
        break;
    case WAITING: enter(p, REFILLING, 3 + draw_below(&p->draw, 2)); break;
    default:
        enter(p, p->then, p->then == REFILLING ? 3 + draw_below(&p->draw, 2) : p->then == WAITING ? 2 + draw_below(&p->draw, 20) : FIELD_ROW_MINUTES);
        break;
    }
}

static uint32_t tender_distance(struct planter *p)
{
    uint32_t across = 12 * (p->pass > p->tender_at ? p->pass - p->tender_at : p->tender_at - p->pass);
    uint32_t along = 140 * (p->pass % 2 == 0 ? p->along : FIELD_ROW_MINUTES - (p->along < FIELD_ROW_MINUTES ? p->along : FIELD_ROW_MINUTES));
    return across + along;
}

/* Draws the columns in their order: the middle of each, and how far it strays. */
static void set_columns(struct planter *p, struct minute *m, const uint32_t *middle, const uint32_t *spread)
{
    for (int j = 0; j < MINUTE_COLUMNS; j++)
        m->column[j] = (uint16_t)about(&p->draw, j == HEADING ? middle[j] + 3600 : middle[j], spread[j]);
    m->column[HEADING] %= 3600;
}

static void record_working(struct planter *p, struct minute *m)
{
    static const uint32_t spread[MINUTE_COLUMNS] = { 20, 18, 6, 15, 12, 5 };
    uint32_t seed = about(&p->draw, SEED_A_MINUTE, 4);
    p->hopper = p->hopper > seed ? p->hopper - seed : 0;
    p->along++;
    const uint32_t middle[MINUTE_COLUMNS] = { 240, 330, p->hopper, FAN_WORKING, p->heading, tender_distance(p) };
    set_columns(p, m, middle, spread);
}

static void record_turning(struct planter *p, struct minute *m)
{
    static const uint32_t spread[MINUTE_COLUMNS] = { 25, 40, 6, 25, 700, 12 };
    const uint32_t middle[MINUTE_COLUMNS] = { 110, 40, p->hopper, FAN_WORKING, turned(p->heading, 900), tender_distance(p) };
    set_columns(p, m, middle, spread);
}

static void record_refilling(struct planter *p, struct minute *m)
{
    static const uint32_t spread[MINUTE_COLUMNS] = { 0, 0, 12, 8, 0, 2 };
    p->hopper = p->hopper + REFILL_A_MINUTE < HOPPER_FULL ? p->hopper + REFILL_A_MINUTE : HOPPER_FULL;
    const uint32_t middle[MINUTE_COLUMNS] = { 0, 0, p->hopper, FAN_IDLE, p->heading, 4 };
    set_columns(p, m, middle, spread);
}

static void record_waiting(struct planter *p, struct minute *m)
{
    static const uint32_t spread[MINUTE_COLUMNS] = { 0, 0, 3, 6, 0, 4 };
    const uint32_t middle[MINUTE_COLUMNS] = { 0, 0, p->hopper, FAN_IDLE, p->heading, 30 + 40 * p->left };
    set_columns(p, m, middle, spread);
}

static void record_travelling(struct planter *p, struct minute *m)
{
    static const uint32_t spread[MINUTE_COLUMNS] = { 90, 0, 15, 30, 300, 60 };
    p->bearing = draw_one_in(&p->draw, 3) ? draw_below(&p->draw, 3600) : p->bearing;
    const uint32_t middle[MINUTE_COLUMNS] = { 420, 0, p->hopper, FAN_IDLE, p->bearing, 120 + 260 * p->left };
    set_columns(p, m, middle, spread);
}

static void record(struct planter *p, struct minute *m)
{
    static void (*const one[ACTIVITIES])(struct planter *, struct minute *) = { record_working, record_turning, record_refilling, record_waiting,
                                                                               record_travelling };
    m->activity = p->activity;
    one[p->activity](p, m);
}

void make_minutes(uint64_t seed, size_t count, struct minute *to)
{
    struct planter p = { { seed }, TRAVELLING, WORKING, 0, HOPPER_FULL, 0, 0, 0, 0, 0, 0 };
    new_field(&p);
    for (size_t i = 0; i < count; i++) {
        if (p.left == 0)
            next_activity(&p);
        p.left--;
        record(&p, &to[i]);
    }
}
