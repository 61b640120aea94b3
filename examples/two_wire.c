/* A controller of a panel of two MAX6955, run against their bench double. Its routines write and read registers over the two-wire bus; it shows a
   count on part 2, and reads its keys.

     make lib && cc -std=c11 -Itarget/lib examples/two_wire.c target/lib/libratchetelm.a -o target/two_wire && target/two_wire */
#include <stdio.h>
#include <stdlib.h>
#include "ratchetelm.h"

enum { PARTS = 2, FIRST = 0x60, SECOND = 0x6F };    /* both address pins to ground, and both to SCL */

/* Registers; masks are written where debounced keys are read. */
enum {
    DECODE = 0x01,
    SCAN_LIMIT = 0x03,
    CONFIGURATION = 0x04,
    PORTS = 0x06,
    MASK_A = 0x08,
    KEYS_A = 0x08,
    DIGIT_0_P0 = 0x20,
    DIGIT_0 = 0x60    /* both planes */
};

/* The double stands in for the bus: on the machine, the four routines below drive its two lines, and these aren't there. */
static max6954_device panel[PARTS];
static max6955_bus bus;
static const max6955_straps straps = { { FIRST, SECOND } };

static void expect(int yes, const char *what)
{
    if (!yes) {
        fprintf(stderr, "two_wire: expected %s\n", what);
        exit(1);
    }
}

/* What a call of the double must give. */
static void served(const char *call, uint8_t number)
{
    if (number) {
        fprintf(stderr, "two_wire: %s refused: %s\n", call, max6954_refusal_text(number));
        exit(1);
    }
}

static void start(void)
{
    const max6955_bus_answer a = max6955_start(panel, PARTS, bus, straps);
    served("start", a.number);
    bus = a.bus;
}

static void stop(void)
{
    const max6955_bus_answer a = max6955_stop(panel, PARTS, bus, straps);
    served("stop", a.number);
    bus = a.bus;
}

/* Gives a byte; whether it was acknowledged. */
static int give(uint8_t byte)
{
    const max6955_byte_answer a = max6955_write(panel, PARTS, bus, straps, byte);
    served("byte", a.number);
    bus = a.bus;
    return a.acknowledged;
}

static uint8_t get(void)
{
    const max6955_byte_answer a = max6955_read(panel, PARTS, bus, straps);
    served("byte", a.number);
    bus = a.bus;
    return a.data;
}

/* Writes registers from an address on: start, slave byte, command address, data, stop. Whether the part acknowledged. */
static int write_registers(uint8_t part, uint8_t address, const uint8_t *data, size_t count)
{
    start();
    int there = give((uint8_t)(2 * part)) && give(address);
    for (size_t k = 0; there && k < count; k++)
        there = give(data[k]);
    stop();
    return there;
}

static int write_register(uint8_t part, uint8_t address, uint8_t data)
{
    return write_registers(part, address, &data, 1);
}

/* Reads registers from an address on: the address is written, and a repeated start turns the bus round. */
static int read_registers(uint8_t part, uint8_t address, uint8_t *data, size_t count)
{
    start();
    int there = give((uint8_t)(2 * part)) && give(address);
    start();
    there = there && give((uint8_t)(2 * part + 1));
    for (size_t k = 0; there && k < count; k++)
        data[k] = get();
    stop();
    return there;
}

static void look_for_parts(void)
{
    for (uint8_t address = FIRST; address <= SECOND; address++) {
        start();
        if (give((uint8_t)(2 * address)))
            printf("a part answers at %02X\n", address);
        stop();
    }
}

/* The digits of a count in the hex font, both planes at once; registers side by side go in one transfer. */
static void show_count(unsigned count)
{
    const uint8_t awake[2] = { 1, 1 };    /* scan limit: cathodes 0 and 1; configuration: normal operation */
    const uint8_t digits[2] = { (uint8_t)(count / 10), (uint8_t)(count % 10) };
    uint8_t read[2];
    expect(write_register(SECOND, DECODE, 3), "the hex font on digits 0 and 1");
    expect(write_registers(SECOND, SCAN_LIMIT, awake, 2), "two digits in normal operation");
    expect(write_registers(SECOND, DIGIT_0, digits, 2), "two digits");
    expect(read_registers(SECOND, DIGIT_0_P0, read, 2), "the digits of P0");
    printf("count %u: the digits read %02X %02X\n", count, read[0], read[1]);
    expect(read[0] == digits[0] && read[1] == digits[1], "the digits that were written");
}

/* The address steps at each byte: a controller that only turns the bus round reads the register after the one that it wrote. */
static void read_after_write(void)
{
    uint8_t read[1];
    expect(write_register(SECOND, CONFIGURATION, 1), "normal operation");
    start();
    expect(give(2 * SECOND + 1), "the part");
    const uint8_t next = get();
    stop();
    expect(read_registers(SECOND, CONFIGURATION, read, 1), "the configuration");
    printf("04 written, then read: %02X, which is 05's; with its address set again: %02X\n", next, read[0]);
    expect(next == 0 && read[0] == 0x81, "the address to have stepped");
}

static void read_keys(void)
{
    uint8_t keys[4], again[4];
    expect(write_register(SECOND, PORTS, 0x9F) && write_register(SECOND, MASK_A, 0xFF), "four key groups, the first masked");
    for (int k = 0; k < 2; k++)
        served("scan", max6954_scan(panel, PARTS, 2, 0x08, 0, 0, 0x80));
    const unsigned raised = max6954_interrupt(panel, PARTS, 2).raised;
    expect(read_registers(SECOND, KEYS_A, keys, 4) && read_registers(SECOND, KEYS_A, again, 4), "the keys");
    printf("interrupt %u: the keys read %02X %02X %02X %02X, ", raised, keys[0], keys[1], keys[2], keys[3]);
    printf("and %02X %02X %02X %02X when read again\n", again[0], again[1], again[2], again[3]);
    expect(raised == 1 && keys[0] == 0x08 && keys[3] == 0x80 && again[0] == 0 && again[3] == 0, "each key once");
}

int main(void)
{
    expect(sizeof(max6954_device) == MAX6954_DEVICE_SIZE, "records laid out as the library has them");
    for (int i = 0; i < PARTS; i++)
        panel[i] = max6954_power_up();
    look_for_parts();
    show_count(42);
    read_after_write();
    read_keys();
    expect(panel[0].registers.config.s == 0, "part 1 as it was");
    return 0;
}
