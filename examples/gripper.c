/* A controller of a gripper board, run against its bench double: a MAX6954 with the count of grips, and behind it on the same four wires a MAX6957
   with a lamp, a valve and the switches of the jaws. It waits for a switch by the MAX6957's interrupt, and doesn't take a read in shutdown for what
   it wrote.

     make lib && cc -std=c11 -Itarget/lib examples/gripper.c target/lib/libratchetelm.a -o target/gripper && target/gripper */
#include <stdio.h>
#include <stdlib.h>
#include "ratchetelm.h"

enum { DRIVERS = 2, DISPLAY = 1, PORTS = 2 };

/* Ports of the MAX6957. */
enum { LAMP = 4, VALVE = 5, OPEN = 24, CLOSED = 25, INT = 31 };

/* Words to the MAX6954. */
enum {
    NO_OP = 0x0000,
    DECODE_ONE = 0x0101,          /* hex font on digit 0 */
    SCAN_ONE = 0x0300,            /* scan limit: cathode 0 */
    NORMAL_OPERATION = 0x0401,
    DIGIT_0 = 0x6000,             /* both planes */
    READ_DIGIT_0 = 0xA000
};

/* Words to the MAX6957: many addresses are those of the MAX6954, and mean something else. */
enum {
    LAMP_AND_VALVE = 0x09A4,      /* P4 an LED, P5 an output, P6 and P7 inputs */
    INT_OUTPUT = 0x0F6A,          /* P31 an output, P28 to P30 inputs */
    LAMP_CURRENT = 0x1209,        /* of P4: 10 sixteenths */
    WATCH_SWITCHES = 0x0603,      /* mask: P24 and P25 */
    ARM = 0x04C1,                 /* M, each port's own current, normal operation */
    SHUT_DOWN = 0x0440,           /* the same without M and S */
    PORT = 0x2000,                /* a single port: its number more in the address */
    READ = 0x8000,
    READ_CONFIGURATION = 0x8400,
    READ_MASK = 0x8600,           /* clears the interrupt */
    READ_SWITCHES = 0xD800        /* P24 to P31 */
};

/* The double stands in for the bus: on the machine, send clocks a port and this array isn't there. */
static max6954_device board[DRIVERS];

static void expect(int yes, const char *what)
{
    if (!yes) {
        fprintf(stderr, "gripper: expected %s\n", what);
        exit(1);
    }
}

/* What a call of the double must give. */
static void served(const char *call, uint8_t number)
{
    if (number) {
        fprintf(stderr, "gripper: %s refused: %s\n", call, max6954_refusal_text(number));
        exit(1);
    }
}

/* One access: a word to a driver, and the no-op, which both families have, to the other. Gives the word that comes out in the driver's place. */
static unsigned send(size_t driver, unsigned word)
{
    const size_t at = 2 * (DRIVERS - driver);    /* the last driver's word goes first */
    uint8_t sent[2 * DRIVERS] = { 0 }, answer[2 * DRIVERS];
    sent[at] = (uint8_t)(word >> 8);
    sent[at + 1] = (uint8_t)word;
    served("access", max6954_access(board, DRIVERS, 16 * DRIVERS, sent, sizeof sent, answer, sizeof answer));
    return answer[at] * 256u + answer[at + 1];
}

/* A register's data, taken one access after the read. */
static unsigned data_of(size_t driver, unsigned read)
{
    send(driver, read);
    const unsigned answer = send(driver, NO_OP);
    expect(answer >> 8 == read >> 8, "the answer of the read, one access later");
    return answer & 0xFF;
}

static void set_port(unsigned port, unsigned bit)
{
    send(PORTS, PORT + 0x100 * port + bit);
}

static unsigned read_port(unsigned port)
{
    return data_of(PORTS, READ + PORT + 0x100 * port);
}

/* What the board has at a port of the MAX6957. */
static unsigned driven(unsigned port)
{
    const max6957_port_answer given = max6957_ports(board, DRIVERS, PORTS);
    served("ports", given.number);
    return given.ports[port - 4];
}

/* On the machine, P31 is wired to a pin of the controller. */
static int interrupted(void)
{
    return driven(INT) == MAX6957_HIGH;
}

/* The jaws move: which of their switches are closed. */
static void jaws(unsigned open, unsigned closed)
{
    served("pins", max6954_set_pins(board, DRIVERS, PORTS, (uint32_t)open << (OPEN - 4) | (uint32_t)closed << (CLOSED - 4)));
}

static void configure(void)
{
    board[DISPLAY - 1] = max6954_power_up();
    board[PORTS - 1] = max6957_power_up();
    send(DISPLAY, DECODE_ONE);
    send(DISPLAY, SCAN_ONE);
    send(DISPLAY, NORMAL_OPERATION);
    send(PORTS, LAMP_AND_VALVE);
    send(PORTS, INT_OUTPUT);
    send(PORTS, LAMP_CURRENT);
    send(PORTS, WATCH_SWITCHES);
    jaws(1, 0);
}

/* Detection is armed before the valve opens, so that no change is missed. */
static void grip(void)
{
    send(PORTS, ARM);
    set_port(LAMP, 1);
    set_port(VALVE, 1);
    const unsigned lamp = driven(LAMP), valve = driven(VALVE);
    printf("gripping: the lamp has %u sixteenths, the valve is %s\n", lamp - 2, valve == MAX6957_HIGH ? "high" : "low");
    expect(lamp == 2 + 10 && valve == MAX6957_HIGH, "the lamp and the valve on");
    expect(!interrupted(), "no interrupt before the jaws move");
}

/* The interrupt tells that a switch changed, not which: the switches are read, and the mask after them, which lowers P31. */
static void wait_for_jaws(void)
{
    jaws(0, 0);
    jaws(0, 1);
    const int before = interrupted();
    const unsigned switches = data_of(PORTS, READ_SWITCHES) & 3, mask = data_of(PORTS, READ_MASK);
    const int after = interrupted();
    printf("the jaws move: INT is %s, the switches read %u, the mask %u, and then INT is %s\n", before ? "high" : "low", switches, mask,
           after ? "high" : "low");
    expect(before && switches == 2 && mask == 3 && !after, "one interrupt, and the switch of closed jaws");
}

/* A cleared event leaves detection off, although M reads set. */
static void arm_again(void)
{
    jaws(1, 0);
    const int unarmed = interrupted();
    const unsigned configuration = data_of(PORTS, READ_CONFIGURATION);
    send(PORTS, ARM);
    jaws(0, 1);
    printf("the jaws slip: INT is %s while the configuration reads %02X; ", unarmed ? "high" : "low", configuration);
    printf("armed again, it is %s\n", interrupted() ? "high" : "low");
    expect(!unarmed && configuration == (ARM & 0xFF) && interrupted(), "detection off until it is armed again");
}

/* In shutdown every port is an input: a read finds its pin, not the bit that was written. S in the configuration tells which of them it was. */
static void read_valve(unsigned wanted, unsigned awake)
{
    const unsigned bit = read_port(VALVE), configuration = data_of(PORTS, READ_CONFIGURATION);
    printf("the valve's port reads %u: %s\n", bit, configuration & 1 ? "as it was written" : "its pin, since the driver is in shutdown");
    expect(bit == wanted && (configuration & 1) == awake, "the valve's port, and whether the driver is awake");
}

/* Shutdown lets go of lamp and valve, and forgets nothing. */
static void shut_down(void)
{
    read_valve(1, 1);
    send(PORTS, SHUT_DOWN);
    read_valve(0, 0);
    expect(driven(VALVE) == MAX6957_UNDRIVEN && driven(LAMP) == MAX6957_UNDRIVEN, "nothing driven");
    send(PORTS, ARM);
    read_valve(1, 1);
    expect(driven(VALVE) == MAX6957_HIGH && driven(LAMP) == 2 + 10, "lamp and valve as before");
}

static void show_count(unsigned count)
{
    send(DISPLAY, DIGIT_0 + count);
    const unsigned digit = data_of(DISPLAY, READ_DIGIT_0);
    printf("the display counts %u\n", digit);
    expect(digit == count, "the count");
}

int main(void)
{
    expect(sizeof(max6954_device) == MAX6954_DEVICE_SIZE, "records laid out as the library has them");
    configure();
    grip();
    wait_for_jaws();
    show_count(1);
    arm_again();
    shut_down();
    return 0;
}
