/*
 * Sets the time and an alarm, runs to the alarm, saves the chip inside a page and loads it back, and prints every step.
 *
 * C99 and C++. Build: cc -o example example.c $(pkg-config --cflags --libs mc146818)
 */

#include <mc146818.h>

#include <stdio.h>
#include <stdlib.h>
#include <string.h>

static const uint32_t clock_locations[MC146818_TIME_SIZE] = {
    MC146818_SECONDS, MC146818_MINUTES, MC146818_HOURS, MC146818_WEEKDAY,
    MC146818_DATE,    MC146818_MONTH,   MC146818_YEAR,
};

static void print_bytes(const char *name, const uint8_t *bytes, size_t length)
{
    size_t i;
    printf("%s", name);
    for (i = 0; i < length; i++)
        printf(" %02x", (unsigned)bytes[i]);
    printf("\n");
}

static void print_refusal(const char *call, uint32_t answer)
{
    printf("%s: refused, %u: %s\n", call, (unsigned)answer, mc146818_answer_text(answer));
}

/* For calls that cannot be refused here: a refusal is a mistake in this program. */
static uint8_t wanted(const char *call, uint32_t word)
{
    if (!mc146818_accepted(word)) {
        print_refusal(call, mc146818_answer(word));
        exit(1);
    }
    return mc146818_byte(word);
}

/* For calls that must be refused here. */
static void unwanted(const char *call, uint32_t word)
{
    if (mc146818_accepted(word)) {
        printf("%s: accepted\n", call);
        exit(1);
    }
    print_refusal(call, mc146818_answer(word));
}

static void put(uint8_t *chip, const char *name, uint32_t address, uint8_t value)
{
    wanted("write", mc146818_write(chip, address, value));
    printf("write %-15s %2u <- %02x\n", name, (unsigned)address, (unsigned)value);
}

/* One call takes at most MC146818_MOST_TICKS, so a longer run is made of several. */
static void run(uint8_t *chip, uint32_t ticks)
{
    while (ticks > 0) {
        const uint32_t part = ticks < MC146818_MOST_TICKS ? ticks : MC146818_MOST_TICKS;
        wanted("run", mc146818_run(chip, part));
        printf("run %u\n", (unsigned)part);
        ticks -= part;
    }
}

/* Reads a clock byte. In the closed window it waits, a few ticks at a time, until the update has ended. */
static uint8_t get_clock_byte(uint8_t *chip, uint32_t address)
{
    for (;;) {
        const uint32_t word = mc146818_read(chip, address);
        if (mc146818_accepted(word)) {
            printf("read %u: %02x\n", (unsigned)address, (unsigned)mc146818_byte(word));
            return mc146818_byte(word);
        }
        printf("read %u: refused, %u: %s; byte %02x\n", (unsigned)address, (unsigned)mc146818_answer(word),
               mc146818_answer_text(mc146818_answer(word)), (unsigned)mc146818_byte(word));
        if (mc146818_answer(word) != MC146818_CLOSED_WINDOW)
            exit(1);
        run(chip, 32);
    }
}

static void print_lines(const uint8_t *chip)
{
    const unsigned lines = wanted("lines", mc146818_lines(chip));
    printf("lines: IRQ %s, SQW %s\n", lines & MC146818_IRQ_ASSERTED ? "asserted" : "off",
           lines & MC146818_SQW_HIGH ? "high" : "low");
}

int main(void)
{
    const uint8_t mode = MC146818_24_HOUR; /* DM 0: BCD */
    uint8_t chip[MC146818_CHIP_SIZE];
    uint8_t other[MC146818_CHIP_SIZE];
    uint8_t page[256];
    uint8_t bytes[MC146818_TIME_SIZE];
    uint64_t time;
    size_t i;

    printf("-- A fresh chip\n");
    mc146818_fresh(chip);
    print_bytes("A to D:", chip + MC146818_REGISTER_A, 4);

    printf("-- Set the time: year 79, 15 February, a Thursday, 5:58:21\n");
    put(chip, "B (SET, 24/12)", MC146818_REGISTER_B, MC146818_SET | mode);
    wanted("encode", mc146818_encode(bytes, sizeof bytes, 2496981501u, 5, mode));
    print_bytes("encode:", bytes, sizeof bytes);
    for (i = 0; i < sizeof bytes; i++)
        put(chip, "clock", clock_locations[i], bytes[i]);

    printf("-- Set the alarm: three seconds later, and let the clock go\n");
    wanted("encode", mc146818_encode(bytes, sizeof bytes, 2496981504u, 5, mode));
    put(chip, "seconds alarm", MC146818_SECONDS_ALARM, bytes[0]);
    put(chip, "minutes alarm", MC146818_MINUTES_ALARM, bytes[1]);
    put(chip, "hours alarm", MC146818_HOURS_ALARM, MC146818_ALARM_ANY);
    put(chip, "B (AIE, 24/12)", MC146818_REGISTER_B, MC146818_AIE | mode);
    put(chip, "A (32.768 kHz)", MC146818_REGISTER_A, MC146818_DV_32768HZ | MC146818_RATE_1024HZ);

    printf("-- Into the closed window of the first update, and out of it\n");
    run(chip, 16384 + 8);
    printf("A: %02x\n", (unsigned)wanted("read A", mc146818_read(chip, MC146818_REGISTER_A)));
    get_clock_byte(chip, MC146818_SECONDS);
    printf("A: %02x\n", (unsigned)wanted("read A", mc146818_read(chip, MC146818_REGISTER_A)));
    print_lines(chip);

    printf("-- Two seconds more: the alarm\n");
    run(chip, 2 * 32768);
    print_lines(chip);
    printf("C: %02x\n", (unsigned)wanted("read C", mc146818_read(chip, MC146818_REGISTER_C)));
    printf("C: %02x\n", (unsigned)wanted("read C", mc146818_read(chip, MC146818_REGISTER_C)));
    print_lines(chip);

    printf("-- Ten seconds more, and the time as a number\n");
    run(chip, 10 * 32768);
    for (i = 0; i < sizeof bytes; i++)
        bytes[i] = get_clock_byte(chip, clock_locations[i]);
    time = mc146818_decode(bytes, sizeof bytes, mode);
    if (!mc146818_accepted64(time)) {
        print_refusal("decode", mc146818_answer64(time));
        return 1;
    }
    printf("decode: %lu, weekday %u\n", (unsigned long)mc146818_seconds(time), (unsigned)mc146818_weekday(time));

    printf("-- Save into the middle of a page, and load it back\n");
    memset(page, 0xA5, sizeof page);
    wanted("save", mc146818_save(chip, page, sizeof page, 96));
    print_bytes("page  90 to  95:", page + 90, 6);
    print_bytes("page  96 to 109:", page + 96, 14);
    print_bytes("page 160 to 167:", page + 160, 8);
    print_bytes("page 168 to 173:", page + 168, 6);
    mc146818_fresh(other);
    wanted("load", mc146818_load(other, page + 96, MC146818_CHIP_SIZE));
    printf("load: %s\n", memcmp(chip, other, sizeof chip) == 0 ? "the same chip" : "another chip");

    printf("-- Refusals change nothing\n");
    memcpy(other, chip, sizeof chip);
    unwanted("run 65537", mc146818_run(chip, MC146818_MOST_TICKS + 1));
    unwanted("write C", mc146818_write(chip, MC146818_REGISTER_C, 0));
    unwanted("write A (DV 011)", mc146818_write(chip, MC146818_REGISTER_A, 0x30));
    unwanted("read 64", mc146818_read(chip, MC146818_LOCATIONS));
    unwanted("save at 185", mc146818_save(chip, page, sizeof page, 185));
    unwanted("load 71 bytes", mc146818_load(chip, page + 96, 71));
    page[96 + MC146818_SAVED_SPARE] = 1;
    unwanted("load a bad record", mc146818_load(chip, page + 96, MC146818_CHIP_SIZE));
    printf("chip: %s\n", memcmp(chip, other, sizeof chip) == 0 ? "as it was" : "changed");
    wanted("pins", mc146818_pins(chip, MC146818_PS_HIGH));
    unwanted("read 14 with RESET low", mc146818_read(chip, MC146818_RAM));
    unwanted("encode weekday 0", mc146818_encode(bytes, sizeof bytes, 0, 0, mode));
    print_bytes("encode:", bytes, sizeof bytes);
    return 0;
}
