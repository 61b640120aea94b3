/* The numbers of chains of both families from C: what each driver lacks, the order of the numbers, unknown families, and that a refused call changes no
   byte. */
#include <string.h>
#include "linked.h"
#include "ratchetelm.h"

/* A chain, room for an answer and room for a list. */
static max6954_device chain[17];
static size_t n;
static uint8_t answer[34];
static uint16_t list[512];

/* Drivers at power-up of these families, a digit for each. */
static void fresh(const char *families)
{
    n = strlen(families);
    for (size_t i = 0; i < n; i++) {
        chain[i] = max6954_power_up();
        chain[i].family = (uint8_t)(families[i] - '0');
    }
}

/* The calls, by place in a row of numbers; after ACCESS those that name a driver, then those that need every driver. */
enum {
    ACCESS,
    SET_PINS,
    INTERRUPT,
    ANSWER_MARK,
    PORTS,
    SCAN,
    ADD_CLOCKS,
    PLANE_NUMBER,
    PLANE_SHOWN,
    SEGMENTS,
    BRIGHTNESS,
    SHOWN,
    LOOK_BACK,
    PLAN,
    PLAN_CHECK,
    BUS_START,
    BUS_STOP,
    BUS_WRITE,
    BUS_READ
};

/* What a call is given beside the chain: fit to be served, unless a test changes it. */
static struct {
    size_t driver, sent, digit, wanted;
    uint32_t levels;
    max6955_straps straps;
} given;

static void fit(size_t driver)
{
    given.driver = driver;
    given.sent = 2 * n;
    given.digit = 15;
    given.wanted = MAX6954_WANTED_SIZE * n;
    given.levels = 31;
    for (uint8_t i = 0; i < 16; i++)
        given.straps.addresses[i] = 0x60 + i;
}

/* The number of a call that needs every driver. */
static int number_of_row(int call)
{
    static const uint8_t wanted[17 * MAX6954_WANTED_SIZE] = { 0 };
    const max6955_bus idle = { 0, MAX6955_IDLE };
    switch (call) {
    case PLAN:
        return max6954_plan(chain, n, wanted, given.wanted, list, 512).number;
    case PLAN_CHECK:
        return max6954_plan_check(chain, n, wanted, given.wanted, NULL, 0).number;
    case BUS_START:
        return max6955_start(chain, n, idle, given.straps).number;
    case BUS_STOP:
        return max6955_stop(chain, n, idle, given.straps).number;
    case BUS_WRITE:
        return max6955_write(chain, n, idle, given.straps, 0xC0).number;
    default:
        return max6955_read(chain, n, idle, given.straps).number;
    }
}

/* The number of one that only a driver of the old family has. */
static int number_of_old(int call)
{
    static const uint8_t plane[16] = { 0 };
    static const uint16_t font[128] = { 0 };
    switch (call) {
    case SCAN:
        return max6954_scan(chain, n, given.driver, 1, 1, 1, 1);
    case ADD_CLOCKS:
        return max6954_add_clocks(chain, n, given.driver, 1);
    case PLANE_NUMBER:
        return max6954_plane_number(chain, n, given.driver, plane, 16, plane, 16, 0, given.digit);
    case PLANE_SHOWN:
        return max6954_plane_shown(chain, n, given.driver, plane, 16, plane, 16, 0, given.digit).number;
    case SEGMENTS:
        return max6954_segments(chain, n, given.driver, given.digit - 8, font, 128, font, 128).number;
    case BRIGHTNESS:
        return max6954_brightness(chain, n, given.driver, given.digit).number;
    case SHOWN:
        return max6954_shown(chain, n, given.driver).number;
    default:
        return max6954_look_back(chain, n, given.driver, 1, given.digit, NULL, 0).number;
    }
}

static int number_of(int call)
{
    static const uint8_t bytes[34] = { 0 };
    switch (call) {
    case ACCESS:
        return max6954_access(chain, n, 16 * n, bytes, given.sent, answer, 2 * n);
    case SET_PINS:
        return max6954_set_pins(chain, n, given.driver, given.levels);
    case INTERRUPT:
        return max6954_interrupt(chain, n, given.driver).number;
    case ANSWER_MARK:
        return max6954_answer_mark(chain, n, given.driver).number;
    case PORTS:
        return max6957_ports(chain, n, given.driver).number;
    default:
        return call < PLAN ? number_of_old(call) : number_of_row(call);
    }
}

/* Whether a call gives this number, and where it is refused changes no record and no lent byte. Each begins with the same records. */
static int gives(int call, int number)
{
    static max6954_device before[17];
    static uint8_t room[sizeof answer];
    static uint16_t words[sizeof list / sizeof list[0]];
    memcpy(before, chain, sizeof chain);
    memcpy(room, answer, sizeof answer);
    memcpy(words, list, sizeof list);
    const int found = number_of(call);
    const int kept = memcmp(before, chain, sizeof chain) == 0 && memcmp(room, answer, sizeof answer) == 0 && memcmp(words, list, sizeof list) == 0;
    memcpy(chain, before, sizeof chain);
    if (found != number || (found && !kept))
        printf("call %d gives %d, not %d; records and lent bytes %s\n", call, found, number, kept ? "as they were" : "changed");
    return found == number && (kept || found == 0);
}

/* Whether the calls from one to another, both included, give this number. */
static int all_give(int first, int last, int number)
{
    int all = 1;
    for (int call = first; call <= last; call++)
        all = gives(call, number) && all;
    return all;
}

/* Whether the call of the ports is refused with this number and gives 28 times undriven. */
static int no_ports(size_t driver, int number)
{
    static const uint8_t undriven[28] = { 0 };
    const max6957_port_answer a = max6957_ports(chain, n, driver);
    return a.number == number && memcmp(a.ports, undriven, 28) == 0;
}

static void lacks(void)
{
    fresh("01");
    fit(1);
    holds("the old family has every call but that of the ports", all_give(ACCESS, ANSWER_MARK, 0) && gives(PORTS, 14) && all_give(SCAN, LOOK_BACK, 0));
    fit(2);
    holds("a MAX6957 has accesses, pin levels, interrupt, answer mark and ports", all_give(ACCESS, PORTS, 0) && all_give(SCAN, LOOK_BACK, 14));
    holds("the planner, its check and the bus need every driver", all_give(PLAN, BUS_READ, 14));
    fresh("10");
    fit(2);
    holds("wherever the MAX6957 is", all_give(PLAN, BUS_READ, 14) && all_give(SCAN, LOOK_BACK, 0));
    fresh("00");
    fit(2);
    holds("and a row of the old family has them", all_give(PLAN, BUS_READ, 0) && gives(PORTS, 14));
    fresh("01");
    chain[1].ports.test = 1;
    memset(chain[1].ports.pairs, 0, 7);
    holds("a refused answer has 28 ports undriven, LEDs under test or not", no_ports(1, 14) && no_ports(0, 2) && no_ports(3, 2) && !no_ports(2, 0));
}

static int levels_give(size_t driver, uint32_t levels, int number)
{
    fit(driver);
    given.levels = levels;
    return gives(SET_PINS, number);
}

static void arguments_first(void)
{
    fresh("01");
    holds("6: pin levels of 32 in the old family", levels_give(1, 31, 0) && levels_give(1, 32, 6));
    holds("6: of over 28 bits for a MAX6957", levels_give(2, 0x0FFFFFFF, 0) && levels_give(2, 0x10000000, 6) && levels_give(2, UINT32_MAX, 6));
    fit(2);
    given.digit = 16;
    holds("6: a digit of 16 or a cathode of 8, before 14", all_give(PLANE_NUMBER, BRIGHTNESS, 6) && gives(LOOK_BACK, 6) && gives(SHOWN, 14));
    given.wanted = 63;
    holds("14: before 12", gives(PLAN, 14) && gives(PLAN_CHECK, 14));
    given.straps.addresses[1] = 0xE0;
    holds("11: before 14", all_give(BUS_START, BUS_READ, 11));
    given.straps.addresses[0] = 0xE0;
    holds("10: before 14", all_give(BUS_START, BUS_READ, 10));
    fit(3);
    holds("2: before 14", all_give(SET_PINS, LOOK_BACK, 2));
    fresh("00000000000000002");
    fit(1);
    holds("1: seventeen records, one of them unknown", all_give(ACCESS, BUS_READ, 1));
}

static void unknown_families(void)
{
    fresh("21");
    fit(1);
    int all = all_give(ACCESS, BUS_READ, 14);
    fit(2);
    holds("14: an unknown family refuses every call, whichever driver is named", all && all_give(ACCESS, BUS_READ, 14));
    given.sent = 3;
    holds("4: before 14", gives(ACCESS, 4));
    holds("its pin levels aren't tested, another's are", levels_give(1, UINT32_MAX, 14) && levels_give(2, 0x10000000, 6));
    fit(2);
    memset(&chain[0], 0xFF, sizeof chain[0]);
    holds("nor is any field of it, up to family 255", all_give(ACCESS, BUS_READ, 14));
    fresh("201");
    chain[1].registers.controls.limit = 8;
    fit(3);
    holds("7: an unsound record beside it", all_give(ACCESS, BUS_READ, 7));
    fresh("12");
    chain[0].ports.transition.snapshot = 128;
    fit(1);
    holds("7: also one of a MAX6957", all_give(ACCESS, BUS_READ, 7));
}

static void own_fields(void)
{
    fresh("01");
    chain[0].ports.stored = chain[1].registers.pins = UINT32_MAX;
    chain[0].ports.transition.detecting = chain[1].registers.controls.test = chain[1].command = 255;
    fit(2);
    holds("7 tests no register of the other family, and no command address of a MAX6957", all_give(ACCESS, PORTS, 0));
    chain[1].answer_mark = 2;
    holds("but its answer mark", all_give(ACCESS, BUS_READ, 7));
}

int main(void)
{
    memset(answer, 0xEE, sizeof answer);
    memset(list, 0xEE, sizeof list);
    lacks();
    arguments_first();
    unknown_families();
    own_fields();
    return counted();
}
