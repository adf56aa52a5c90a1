/* The route table of the host bsdi, from C: it is filled in no order, asked, walked, tried out, and told what was learned. */
#include <inttypes.h>
#include <stdio.h>

#include "rishavand.h"

#define IP(a, b, c, d) \
    (((uint32_t)(a) << 24) | ((uint32_t)(b) << 16) | ((uint32_t)(c) << 8) | (uint32_t)(d))

/* One pool for the life of the program, as firmware would have it: large enough for any capacity. */
static uint32_t pool[RISHAVAND_MOST_WORDS];
static const size_t words = RISHAVAND_MOST_WORDS;

/* Ports: 0 is le0, 1 is sl0, 2 is lo0. */
static const uint32_t bsdi[][RISHAVAND_ROUTE_WORDS] = {
    {IP(224, 0, 0, 1), 32, RISHAVAND_DIRECT, 0, 0, RISHAVAND_FIXED, 0},
    {IP(140, 252, 13, 32), 27, RISHAVAND_DIRECT, 0, 0, RISHAVAND_FIXED, 0},
    {IP(127, 0, 0, 1), 32, RISHAVAND_DIRECT, 2, 0, RISHAVAND_FIXED, 0},
    {IP(0, 0, 0, 0), 0, RISHAVAND_VIA, 0, IP(140, 252, 13, 33), RISHAVAND_FIXED, 0},
    {IP(140, 252, 13, 65), 32, RISHAVAND_DIRECT, 1, 0, RISHAVAND_FIXED, 0},
    {IP(127, 0, 0, 0), 8, RISHAVAND_REJECT, 0, 0, RISHAVAND_FIXED, 0},
    {IP(140, 252, 13, 33), 32, RISHAVAND_DIRECT, 0, 0, RISHAVAND_FIXED, 0},
    {IP(224, 0, 0, 0), 8, RISHAVAND_DIRECT, 0, 0, RISHAVAND_FIXED, 0},
    {IP(140, 252, 13, 35), 32, RISHAVAND_DIRECT, 2, 0, RISHAVAND_FIXED, 0},
    {IP(128, 32, 33, 5), 32, RISHAVAND_VIA, 0, IP(140, 252, 13, 33), RISHAVAND_FIXED, 0},
    {IP(140, 252, 13, 34), 32, RISHAVAND_DIRECT, 0, 0, RISHAVAND_FIXED, 0},
};

enum { ROUTES = sizeof bsdi / sizeof bsdi[0] };

static void print_address(uint32_t a)
{
    printf("%" PRIu32 ".%" PRIu32 ".%" PRIu32 ".%" PRIu32, a >> 24, (a >> 16) & 255, (a >> 8) & 255,
           a & 255);
}

static void print_route(const uint32_t route[RISHAVAND_ROUTE_WORDS])
{
    print_address(route[RISHAVAND_ADDRESS]);
    printf("/%" PRIu32, route[RISHAVAND_LENGTH]);
    switch (route[RISHAVAND_KIND]) {
    case RISHAVAND_DIRECT:
        printf(" direct %" PRIu32, route[RISHAVAND_PORT]);
        break;
    case RISHAVAND_VIA:
        printf(" via %" PRIu32 " ", route[RISHAVAND_PORT]);
        print_address(route[RISHAVAND_GATEWAY]);
        break;
    default:
        printf(" reject");
        break;
    }
    printf(" %s %" PRIu32, route[RISHAVAND_ORIGIN] == RISHAVAND_LEARNED ? "learned" : "fixed",
           route[RISHAVAND_METRIC]);
}

static void print_answer(uint32_t number, const uint32_t route[RISHAVAND_ROUTE_WORDS])
{
    printf("%" PRIu32, number);
    if (number == RISHAVAND_DONE) {
        printf(" ");
        print_route(route);
    }
    printf("\n");
}

static uint32_t add(const uint32_t route[RISHAVAND_ROUTE_WORDS])
{
    return rishavand_add(pool, words, route[RISHAVAND_ADDRESS], route[RISHAVAND_LENGTH],
                         route[RISHAVAND_KIND], route[RISHAVAND_PORT], route[RISHAVAND_GATEWAY]);
}

static void lookup(uint32_t destination)
{
    uint32_t route[RISHAVAND_ROUTE_WORDS] = {0};
    printf("lookup ");
    print_address(destination);
    printf(": ");
    print_answer(rishavand_lookup(pool, words, destination, route), route);
}

static void walk(void)
{
    uint32_t route[RISHAVAND_ROUTE_WORDS] = {0};
    uint32_t number = rishavand_first(pool, words, route);
    while (number == RISHAVAND_DONE) {
        printf("walk: ");
        print_route(route);
        printf("\n");
        number = rishavand_next(pool, words, route[RISHAVAND_ADDRESS], route[RISHAVAND_LENGTH], route);
    }
    printf("walk: %" PRIu32 "\n", number);
}

static void room(void)
{
    uint32_t left[1] = {0};
    uint32_t number = rishavand_room(pool, words, left);
    printf("room: %" PRIu32 " %" PRIu32 "\n", number, left[0]);
}

static void mask(uint32_t m)
{
    uint32_t length[1] = {99};
    uint32_t number = rishavand_mask_length(m, length);
    printf("mask ");
    print_address(m);
    printf(": %" PRIu32 " %" PRIu32 "\n", number, length[0]);
}

static void filled(void)
{
    size_t i;
    printf("words for %d routes: %lu\n", ROUTES, (unsigned long)rishavand_words(ROUTES));
    printf("fresh: %" PRIu32 "\n", rishavand_fresh(pool, words, ROUTES));
    for (i = 0; i < ROUTES; i++) {
        printf("add ");
        print_route(bsdi[i]);
        printf(": %" PRIu32 "\n", add(bsdi[i]));
    }
    room();
    walk();
}

static void asked(void)
{
    lookup(IP(127, 0, 0, 1));
    lookup(IP(127, 0, 0, 2));
    lookup(IP(127, 0, 0, 3));
    lookup(IP(140, 252, 13, 35));
    lookup(IP(140, 252, 13, 60));
    lookup(IP(140, 252, 13, 188));
    lookup(IP(10, 1, 2, 3));
    lookup(IP(112, 0, 0, 1));
    lookup(IP(224, 0, 0, 5));
    mask(IP(255, 255, 255, 224));
    mask(IP(255, 0, 255, 0));
}

/* Each refusal in its turn, the first that is due. */
static void refused(void)
{
    static uint32_t bare[4];
    printf("words as in the header: %d\n",
           rishavand_words(RISHAVAND_LARGEST_CAPACITY) == RISHAVAND_MOST_WORDS);
    printf("no words: %lu %lu\n", (unsigned long)rishavand_words(0),
           (unsigned long)rishavand_words(RISHAVAND_LARGEST_CAPACITY + 1));
    printf("fresh, above the largest capacity: %" PRIu32 "\n",
           rishavand_fresh(bare, 4, RISHAVAND_LARGEST_CAPACITY + 1));
    printf("fresh, 4 words: %" PRIu32 "\n", rishavand_fresh(bare, 4, 1));
    printf("sound: %" PRIu32 " %" PRIu32 "\n", rishavand_sound(pool, words), rishavand_sound(bare, 4));
    printf("add to what is no pool: %" PRIu32 "\n",
           rishavand_add(bare, 4, 0, 33, 3, RISHAVAND_LAST_PORT + 1, 0));
    printf("add a length of 33: %" PRIu32 "\n",
           rishavand_add(pool, words, 0, 33, 3, RISHAVAND_LAST_PORT + 1, 0));
    printf("delete by a mask with a hole, there and in what is no pool: %" PRIu32 " %" PRIu32 "\n",
           rishavand_delete(pool, words, IP(127, 0, 0, 0), rishavand_masked(IP(255, 0, 255, 0))),
           rishavand_delete(bare, 4, IP(127, 0, 0, 0), rishavand_masked(IP(255, 0, 255, 0))));
    printf("add a kind of 3: %" PRIu32 "\n", rishavand_add(pool, words, 0, 0, 3, 0, 0));
    printf("add what is there: %" PRIu32 "\n", rishavand_add(pool, words, 0, 0, RISHAVAND_REJECT, 99, 99));
    printf("add one too many: %" PRIu32 "\n",
           rishavand_add(pool, words, IP(10, 0, 0, 0), 8, RISHAVAND_REJECT, 0, 0));
    printf("delete what is not there: %" PRIu32 "\n", rishavand_delete(pool, words, IP(10, 0, 0, 0), 8));
    printf("step back, keep, back out with no trial: %" PRIu32 " %" PRIu32 " %" PRIu32 "\n",
           rishavand_step_back(pool, words), rishavand_keep(pool, words), rishavand_back_out(pool, words));
}

/* The default route deleted and 127/8 sent elsewhere, one step taken back, then all. */
static void tried(void)
{
    printf("open: %" PRIu32 "\n", rishavand_open(pool, words));
    printf("open again: %" PRIu32 "\n", rishavand_open(pool, words));
    printf("step back: %" PRIu32 "\n", rishavand_step_back(pool, words));
    printf("delete 0.0.0.0/0: %" PRIu32 "\n", rishavand_delete(pool, words, 0, 0));
    printf("change 127.0.0.0/8 to direct %d: %" PRIu32 "\n", RISHAVAND_LAST_PORT,
           rishavand_change(pool, words, IP(127, 0, 0, 0), 8, RISHAVAND_DIRECT, RISHAVAND_LAST_PORT, 99));
    lookup(IP(127, 0, 0, 2));
    lookup(IP(10, 1, 2, 3));
    printf("step back: %" PRIu32 "\n", rishavand_step_back(pool, words));
    lookup(IP(127, 0, 0, 2));
    lookup(IP(10, 1, 2, 3));
    room();
    printf("back out: %" PRIu32 "\n", rishavand_back_out(pool, words));
    lookup(IP(10, 1, 2, 3));
    room();
    printf("open, delete 0.0.0.0/0, keep: %" PRIu32, rishavand_open(pool, words));
    printf(" %" PRIu32, rishavand_delete(pool, words, 0, 0));
    printf(" %" PRIu32 "\n", rishavand_keep(pool, words));
    lookup(IP(10, 1, 2, 3));
    lookup(IP(0, 0, 0, 0));
    lookup(IP(255, 255, 255, 255));
}

/* What a neighbour says: fixed routes are none of its business, and what it said it may take back. */
static void learned(void)
{
    const uint32_t ten = IP(10, 0, 0, 0), gateway = IP(140, 252, 13, 33);
    printf("learned change, learned delete of 127.0.0.0/8, which is fixed: %" PRIu32 " %" PRIu32 "\n",
           rishavand_learned_change(pool, words, IP(127, 0, 0, 0), 8, RISHAVAND_VIA, 0, gateway, 3),
           rishavand_learned_delete(pool, words, IP(127, 0, 0, 0), 8));
    printf("learned add of 10.0.0.0/8 with metric 0, one past the last, 3: %" PRIu32,
           rishavand_learned_add(pool, words, ten, 8, RISHAVAND_VIA, 0, gateway, 0));
    printf(" %" PRIu32, rishavand_learned_add(pool, words, ten, 8, RISHAVAND_VIA, 0, gateway,
                                              RISHAVAND_LAST_METRIC + 1));
    printf(" %" PRIu32 "\n", rishavand_learned_add(pool, words, ten, 8, RISHAVAND_VIA, 0, gateway, 3));
    lookup(IP(10, 1, 2, 3));
    printf("learned change to metric 2: %" PRIu32 "\n",
           rishavand_learned_change(pool, words, ten, 8, RISHAVAND_VIA, 0, gateway, 2));
    lookup(IP(10, 1, 2, 3));
    printf("open: %" PRIu32 "\n", rishavand_open(pool, words));
    printf("change to reject: %" PRIu32 "\n",
           rishavand_change(pool, words, ten, 8, RISHAVAND_REJECT, 0, 0));
    lookup(IP(10, 1, 2, 3));
    printf("step back, keep: %" PRIu32, rishavand_step_back(pool, words));
    printf(" %" PRIu32 "\n", rishavand_keep(pool, words));
    lookup(IP(10, 1, 2, 3));
    printf("learned delete: %" PRIu32 "\n", rishavand_learned_delete(pool, words, ten, 8));
    lookup(IP(10, 1, 2, 3));
}

int main(void)
{
    filled();
    asked();
    refused();
    tried();
    learned();
    return 0;
}
