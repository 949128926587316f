/*
 * mc146818.h - a stand-in for the MC146818 real-time clock plus RAM
 *
 * C99 and C++. Link with libmc146818.a; nothing else is needed.
 *
 * This header is the manual. It has five parts:
 *
 *   1  What holds for every call
 *   2  Answers and result words
 *   3  Names from the data sheet: locations, register bits, rates, pins
 *   4  The ten calls
 *   5  Functions that take a word apart
 *
 * A clock at 32.768 kHz, BCD and 24-hour, one second later:
 *
 *     uint8_t chip[MC146818_CHIP_SIZE];
 *     mc146818_fresh(chip);
 *     mc146818_write(chip, MC146818_REGISTER_B, MC146818_24_HOUR);
 *     mc146818_write(chip, MC146818_REGISTER_A, MC146818_DV_32768HZ);
 *     mc146818_run(chip, 32768);
 *     printf("%02x\n", (unsigned)mc146818_byte(mc146818_read(chip, MC146818_SECONDS)));
 */

#ifndef MC146818_H
#define MC146818_H

#include <stddef.h>
#include <stdint.h>

#ifdef __cplusplus
extern "C" {
#endif

#define MC146818_VERSION "0.1.0"

/* ------------------------------------------------------------------------------------------------------------------
 * 1  What holds for every call
 *
 * The chip. A chip is 72 bytes of yours: on the stack, in a struct, in a file mapping. They are the saved chip itself,
 * so copying the bytes copies the chip. A call reads the chip from them, does its work and puts the chip back.
 *
 * Any bytes may be passed as a chip. Bytes that cannot be a chip (see mc146818_load for the rules) are answered with
 * MC146818_BROKEN_RECORD, before anything else is looked at, and stay as they are. mc146818_fresh and mc146818_load
 * are the two ways out.
 *
 * Refusals. A refused call changes no byte of chip or page. The one buffer that a refusal writes is that of
 * mc146818_encode, which becomes zeros. Where several refusals fit, each call below lists the order: the first one
 * listed is given.
 *
 * Threads. The library has no variables of its own. Any two chips are independent, and calls on different chips may
 * run at the same time. Two calls on one chip at the same time need your lock, unless both take it as const.
 *
 * Time. No call allocates, blocks, makes a system call or looks at the machine's clock. Time passes in mc146818_run
 * and nowhere else.
 *
 * Memory. No buffer needs an alignment. Pointers are never NULL, not even with length 0. A length is the true length
 * of its buffer. Buffers passed to one call must not overlap.
 */

/* Bytes of a chip, and of a saved chip. */
#define MC146818_CHIP_SIZE 72
/* Bytes of a time: seconds, minutes, hours, weekday, date, month, year. */
#define MC146818_TIME_SIZE 7
/* The most ticks that one call of mc146818_run takes. */
#define MC146818_MOST_TICKS 65536u
/* The last second of the century that the year byte counts: year 99, 31 December, 23:59:59. */
#define MC146818_LAST_SECOND 3155759999u

/* ------------------------------------------------------------------------------------------------------------------
 * 2  Answers and result words
 *
 * Each word carries an answer: 0, or the number of a refusal.
 */

#define MC146818_ACCEPTED 0u       /* done */
#define MC146818_WRONG_LENGTH 1u   /* load: not 72 bytes; save: no room for 72 bytes at this offset */
#define MC146818_NO_LOCATION 2u    /* read, write: an address above 63 */
#define MC146818_RESET_IS_LOW 3u   /* read, write: the RESET pin is low */
#define MC146818_CLOSED_WINDOW 4u  /* read, write: locations 0 to 9 while an update moves them; run on and retry */
#define MC146818_READ_ONLY 5u      /* write: registers C and D */
#define MC146818_TEST_PATTERN 6u   /* write: register A with DV 011, 100 or 101 */
#define MC146818_TOO_MANY_TICKS 7u /* run: more than MC146818_MOST_TICKS */
#define MC146818_BROKEN_RECORD 8u  /* any call on a chip, and load's input: these 72 bytes are no chip */
#define MC146818_INVALID_TIME 9u   /* decode, encode: no such time, or a buffer that is not seven bytes */
#define MC146818_UNKNOWN_KIND 10u  /* event files only; no call here gives it */

/*
 * The uint32_t word of most calls:
 *
 *     bits  0 to  7  byte    what was read; 255 where a read is refused; what the call's entry says; else 0
 *     bits  8 to 15  answer  0 or a refusal
 *     bits 16 to 23  offset  0 in this version
 *     bits 24 to 31          0
 *
 * So a word below 256 is an accepted call, and the word of an accepted read is the byte.
 */
#define MC146818_WORD_BYTE_SHIFT 0
#define MC146818_WORD_ANSWER_SHIFT 8
#define MC146818_WORD_OFFSET_SHIFT 16

/*
 * The uint64_t word of mc146818_decode:
 *
 *     bits  0 to 31  seconds
 *     bits 32 to 39  weekday
 *     bits 40 to 47  answer
 *     bits 48 to 63  0
 */
#define MC146818_WORD64_SECONDS_SHIFT 0
#define MC146818_WORD64_WEEKDAY_SHIFT 32
#define MC146818_WORD64_ANSWER_SHIFT 40

/* ------------------------------------------------------------------------------------------------------------------
 * 3  Names from the data sheet
 */

/* Locations. The seven clock bytes stand in the order that the time calls use. */
#define MC146818_SECONDS 0u /* bit 7 reads 0 and cannot be written */
#define MC146818_SECONDS_ALARM 1u
#define MC146818_MINUTES 2u
#define MC146818_MINUTES_ALARM 3u
#define MC146818_HOURS 4u /* 12-hour mode: MC146818_PM is bit 7 */
#define MC146818_HOURS_ALARM 5u
#define MC146818_WEEKDAY 6u /* Sunday is 1 */
#define MC146818_DATE 7u
#define MC146818_MONTH 8u
#define MC146818_YEAR 9u
#define MC146818_REGISTER_A 10u
#define MC146818_REGISTER_B 11u
#define MC146818_REGISTER_C 12u
#define MC146818_REGISTER_D 13u
#define MC146818_RAM 14u /* the first of the user's bytes */
#define MC146818_RAM_SIZE 50u
#define MC146818_LOCATIONS 64u

/* The PM bit of a 12-hour hours byte. */
#define MC146818_PM 0x80u
/* An alarm byte from here up to 0xFF matches every clock byte: "don't care". */
#define MC146818_ALARM_ANY 0xC0u

/* Register A: UIP, DV2 to DV0, RS3 to RS0. */
#define MC146818_UIP 0x80u /* an update is pending; writes leave it alone */
#define MC146818_DV 0x70u  /* mask of the divider bits */
#define MC146818_RS 0x0Fu  /* mask of the rate bits */

/* Divider bits, in place. The divider counts to 4,194,304 in a second, by 1, 4 or 128 to a tick. */
#define MC146818_DV_4194304HZ 0x00u /* 4,194,304 ticks to the second */
#define MC146818_DV_1048576HZ 0x10u /* 1,048,576 ticks to the second */
#define MC146818_DV_32768HZ 0x20u   /* 32,768 ticks to the second */
#define MC146818_DV_HELD 0x60u      /* held; the first 1 Hz edge comes half a second after release */
#define MC146818_DV_HELD_ALSO 0x70u /* the same */

/*
 * Rate bits: the frequency of SQW, and how often PF is set. PF is set where the square wave would rise.
 * At 32.768 kHz rates 1 and 2 act as 8 and 9: 256 Hz and 128 Hz.
 */
#define MC146818_RATE_NONE 0u    /* no PF, SQW low */
#define MC146818_RATE_32768HZ 1u /* 30.517 us; not at 32.768 kHz */
#define MC146818_RATE_16384HZ 2u /* 61.035 us; not at 32.768 kHz */
#define MC146818_RATE_8192HZ 3u  /* 122.070 us */
#define MC146818_RATE_4096HZ 4u  /* 244.141 us */
#define MC146818_RATE_2048HZ 5u  /* 488.281 us */
#define MC146818_RATE_1024HZ 6u  /* 976.562 us */
#define MC146818_RATE_512HZ 7u   /* 1.953125 ms */
#define MC146818_RATE_256HZ 8u   /* 3.90625 ms */
#define MC146818_RATE_128HZ 9u   /* 7.8125 ms */
#define MC146818_RATE_64HZ 10u   /* 15.625 ms */
#define MC146818_RATE_32HZ 11u   /* 31.25 ms */
#define MC146818_RATE_16HZ 12u   /* 62.5 ms */
#define MC146818_RATE_8HZ 13u    /* 125 ms */
#define MC146818_RATE_4HZ 14u    /* 250 ms */
#define MC146818_RATE_2HZ 15u    /* 500 ms */

/* Register B. */
#define MC146818_SET 0x80u     /* 1: no update begins. Going from 0 to 1 drops a pending one and stores UIE as 0 */
#define MC146818_PIE 0x40u     /* periodic interrupt enable */
#define MC146818_AIE 0x20u     /* alarm interrupt enable */
#define MC146818_UIE 0x10u     /* update-ended interrupt enable */
#define MC146818_SQWE 0x08u    /* square-wave enable */
#define MC146818_DM 0x04u      /* data mode: 1 binary, 0 BCD */
#define MC146818_24_HOUR 0x02u /* the 24/12 bit: 1 is 24-hour, 0 is 12-hour with PM */
#define MC146818_DSE 0x01u     /* daylight savings enable */

/* Register C. A read clears it all, enabled or not. */
#define MC146818_IRQF 0x80u /* some flag is up whose enable is 1 */
#define MC146818_PF 0x40u   /* periodic interrupt flag */
#define MC146818_AF 0x20u   /* alarm interrupt flag */
#define MC146818_UF 0x10u   /* update-ended interrupt flag */

/* Register D. */
#define MC146818_VRT 0x80u /* valid RAM and time: 0 once PS was low, until a read of D with PS high */

/* Levels for mc146818_pins. */
#define MC146818_RESET_HIGH 0x01u
#define MC146818_PS_HIGH 0x02u

/* What mc146818_lines shows in its byte. */
#define MC146818_IRQ_ASSERTED 0x01u
#define MC146818_SQW_HIGH 0x02u

/* The saved chip beyond its 64 locations. */
#define MC146818_SAVED_COUNT 64  /* the divider count: three bytes, low byte first */
#define MC146818_SAVED_STATUS 67 /* the four bits below; the others are 0 */
#define MC146818_SAVED_SPARE 68  /* four bytes, always 0 */
#define MC146818_STATUS_PENDING 0x01u
#define MC146818_STATUS_RESET_LOW 0x02u
#define MC146818_STATUS_PS_LOW 0x04u
#define MC146818_STATUS_REPEAT_USED 0x08u /* this Sunday's repeated hour in October has begun */

/* ------------------------------------------------------------------------------------------------------------------
 * 4  The ten calls
 */

/*
 * A chip as it comes out of the box: A is 0x60 (divider held), B is 0x80 (SET), every other location 0, both pins
 * high. The clock stands until SET is 0 and a divider is chosen.
 *
 * Refusals: none. Whatever stood in the 72 bytes is lost.
 *
 *     uint8_t chip[MC146818_CHIP_SIZE];
 *     mc146818_fresh(chip);
 */
void mc146818_fresh(uint8_t chip[MC146818_CHIP_SIZE]);

/*
 * Reads the location at an address. The byte of the word is the byte read.
 *
 * A read of C takes the flags away, enabled or not. A read of D shows VRT as it was; with PS high VRT is 1 from then
 * on. No other read changes the chip.
 *
 * Refusals, in this order; each shows byte 255 and changes nothing:
 *     8  the chip is broken
 *     2  the address is above 63
 *     3  RESET is low
 *     4  addresses 0 to 9, in the closed window: an update is pending and at most 2 ms from its end
 *
 * To read a time in one piece, read A first: while UIP is 0 the window is at least 244 us away.
 *
 *     uint32_t word = mc146818_read(chip, MC146818_HOURS);
 *     if (mc146818_answer(word) == MC146818_CLOSED_WINDOW)
 *         mc146818_run(chip, 65); // the whole window at 32.768 kHz; then read again
 */
uint32_t mc146818_read(uint8_t chip[MC146818_CHIP_SIZE], uint32_t address);

/*
 * Writes a byte to the location at an address. The byte of the word is 0.
 *
 * Clock, alarm and RAM take any byte; a clock set to no valid time still runs, by the same rules. Bit 7 of the
 * seconds is dropped. UIP is left as it is. In B, a SET that comes on drops a pending update and UIE with it; the
 * IRQ line follows the new enables at once. In A, new DV bits drop a pending update; on a running divider the stages
 * that the new base leaves out go to 0, on a held one the count stands half a second before the 1 Hz edge. No write
 * sets a flag or begins an update.
 *
 * Refusals, in this order; each changes nothing:
 *     8  the chip is broken
 *     2  the address is above 63
 *     3  RESET is low
 *     4  addresses 0 to 9, in the closed window
 *     5  C and D
 *     6  A, with the divider bits 011, 100 or 101
 *
 *     mc146818_write(chip, MC146818_REGISTER_A, MC146818_DV_32768HZ | MC146818_RATE_1024HZ);
 *     mc146818_write(chip, MC146818_REGISTER_B, MC146818_24_HOUR | MC146818_AIE);
 */
uint32_t mc146818_write(uint8_t chip[MC146818_CHIP_SIZE], uint32_t address, uint8_t value);

/*
 * Lets a number of ticks of the chosen time base pass. The byte of the word is 0.
 *
 * Each tick moves the divider, sets PF if the chosen tap rises, and once a second, with SET 0, begins an update: UIP
 * goes to 1, 244 us later the window closes, 248 us after that (1984 us at 32.768 kHz) the clock moves by one second,
 * UF is set, AF too if the alarm matches the new time, and UIP goes to 0. While RESET is low the time goes on and the
 * flags stay 0. On a held divider ticks do nothing.
 *
 * With DSE the second after 1:59:59 AM is 3:00:00 AM on the last Sunday in April, and on the last one in October it is
 * 1:00:00 AM, once. The chip remembers that in its status until the date moves.
 *
 * Running n ticks and then m is the same as running n + m. User RAM, alarm bytes and D are left alone.
 *
 * Refusals, in this order; each changes nothing:
 *     8  the chip is broken
 *     7  more than 65,536 ticks, whatever the divider and the pins do
 *
 *     for (left = 100000; left > 0; left -= part) {
 *         part = left < MC146818_MOST_TICKS ? left : MC146818_MOST_TICKS;
 *         mc146818_run(chip, part);
 *     }
 */
uint32_t mc146818_run(uint8_t chip[MC146818_CHIP_SIZE], uint32_t ticks);

/*
 * Sets both pins: MC146818_RESET_HIGH and MC146818_PS_HIGH; a level left out is low. Other bits do not count. The byte
 * of the word is 0.
 *
 * With RESET low the enables PIE, AIE, UIE and SQWE and every flag go to 0 and stay there, and reads and writes are
 * refused. With PS low VRT goes to 0 and stays there. Clock, divider, a pending update and RAM are left alone.
 *
 * Refusals:
 *     8  the chip is broken
 *
 *     mc146818_pins(chip, MC146818_PS_HIGH);                       // RESET low
 *     mc146818_pins(chip, MC146818_RESET_HIGH | MC146818_PS_HIGH); // and high again
 */
uint32_t mc146818_pins(uint8_t chip[MC146818_CHIP_SIZE], uint32_t levels);

/*
 * Shows the two output lines in the byte of the word: MC146818_IRQ_ASSERTED and MC146818_SQW_HIGH. Changes nothing.
 *
 * Refusals:
 *     8  the chip is broken
 *
 *     if (mc146818_byte(mc146818_lines(chip)) & MC146818_IRQ_ASSERTED)
 *         flags = mc146818_byte(mc146818_read(chip, MC146818_REGISTER_C));
 */
uint32_t mc146818_lines(const uint8_t chip[MC146818_CHIP_SIZE]);

/*
 * Replaces the chip by a saved one. The old chip may be any bytes. The input is left alone. Chip and input must not
 * overlap. The byte of the word is 0.
 *
 * Refusals, in this order; each leaves the old chip:
 *     1  length is not 72
 *     8  the input breaks one of these rules:
 *         - bit 7 of location 0 is 0
 *         - DV is 000, 001, 010, 110 or 111
 *         - UIP is the pending bit of the status
 *         - bits 0 to 3 of C and bits 0 to 6 of D are 0
 *         - IRQF agrees with the flags and their enables
 *         - PS low leaves VRT 0
 *         - RESET low leaves PIE, AIE, UIE, SQWE and every flag 0
 *         - the count is below 4,194,304 and divisible by the 1, 4 or 128 of a tick; a held divider has 2,097,152
 *         - an update is pending only with SET 0, a running divider and a count below 2,064 (9,344 at 32.768 kHz)
 *         - the upper four bits of the status and the spare bytes are 0
 *
 *     word = mc146818_load(chip, page + 128, MC146818_CHIP_SIZE);
 *     if (!mc146818_accepted(word))
 *         puts(mc146818_answer_text(mc146818_answer(word)));
 */
uint32_t mc146818_load(uint8_t chip[MC146818_CHIP_SIZE], const uint8_t *input, size_t length);

/*
 * Writes the saved chip into a page, 72 bytes from the offset on. The rest of the page and the chip are left alone.
 * Chip and page must not overlap. Any offset may be given. The byte of the word is 0.
 *
 * Refusals, in this order; each leaves the page:
 *     8  the chip is broken
 *     1  the page has no 72 bytes from this offset on; even the largest offset is simply too large
 *
 *     uint8_t page[4096];
 *     mc146818_save(chip, page, sizeof page, 128);
 */
uint32_t mc146818_save(const uint8_t chip[MC146818_CHIP_SIZE], uint8_t *page, size_t length, size_t offset);

/*
 * Turns seven clock bytes into the seconds since the start of year 00 and the weekday: 0 to MC146818_LAST_SECOND, and
 * 1 to 7. The bytes are seconds, minutes, hours, weekday, date, month, year. The mode is a register B byte; DM and
 * 24/12 count. 12 AM is the first hour of the day, 12 PM the thirteenth. The weekday is not checked against the date.
 * Years divisible by 4 have a 29 February, 00 too. Changes nothing.
 *
 * Refusals; seconds and weekday are then 0:
 *     9  length is not 7, or a byte is out of range for the mode, or the month has no such date
 *
 *     uint64_t word = mc146818_decode(bytes, sizeof bytes, MC146818_24_HOUR);
 *     if (mc146818_accepted64(word))
 *         printf("%lu\n", (unsigned long)mc146818_seconds(word));
 */
uint64_t mc146818_decode(const uint8_t *bytes, size_t length, uint8_t mode);

/*
 * Turns a time into seven clock bytes, the way back of mc146818_decode. The byte of the word is 0.
 *
 * Refusals; the buffer, whatever its length, is then filled with zeros:
 *     9  length is not 7, seconds are above MC146818_LAST_SECOND, or the weekday is not 1 to 7
 *
 *     uint8_t bytes[MC146818_TIME_SIZE]; // 15 February 79, a Thursday, 5:58:21
 *     mc146818_encode(bytes, sizeof bytes, 2496981501u, 5, MC146818_24_HOUR);
 */
uint32_t mc146818_encode(uint8_t *bytes, size_t length, uint64_t seconds, uint32_t weekday, uint8_t mode);

/* ------------------------------------------------------------------------------------------------------------------
 * 5  Functions that take a word apart
 */

/* The byte of a word. */
static inline uint8_t mc146818_byte(uint32_t word)
{
    return (word >> MC146818_WORD_BYTE_SHIFT) & 0xFFu;
}

/* The answer of a word: MC146818_ACCEPTED or a refusal. */
static inline uint32_t mc146818_answer(uint32_t word)
{
    return (word >> MC146818_WORD_ANSWER_SHIFT) & 0xFFu;
}

/* The offset of a word: 0 in this version. */
static inline uint8_t mc146818_offset(uint32_t word)
{
    return (word >> MC146818_WORD_OFFSET_SHIFT) & 0xFFu;
}

/* 1 if the call was accepted, 0 if it was refused. */
static inline int mc146818_accepted(uint32_t word)
{
    return mc146818_answer(word) == MC146818_ACCEPTED;
}

/* The seconds in mc146818_decode's word. */
static inline uint32_t mc146818_seconds(uint64_t word)
{
    return (word >> MC146818_WORD64_SECONDS_SHIFT) & 0xFFFFFFFFu;
}

/* The weekday in mc146818_decode's word. */
static inline uint8_t mc146818_weekday(uint64_t word)
{
    return (word >> MC146818_WORD64_WEEKDAY_SHIFT) & 0xFFu;
}

/* The answer in mc146818_decode's word. */
static inline uint32_t mc146818_answer64(uint64_t word)
{
    return (word >> MC146818_WORD64_ANSWER_SHIFT) & 0xFFu;
}

/* 1 if the decode was accepted, 0 if it was refused. */
static inline int mc146818_accepted64(uint64_t word)
{
    return mc146818_answer64(word) == MC146818_ACCEPTED;
}

/* An answer in words, for a log. Never NULL. */
static inline const char *mc146818_answer_text(uint32_t answer)
{
    switch (answer) {
    case MC146818_ACCEPTED:
        return "accepted";
    case MC146818_WRONG_LENGTH:
        return "wrong length";
    case MC146818_NO_LOCATION:
        return "no such location";
    case MC146818_RESET_IS_LOW:
        return "RESET is low";
    case MC146818_CLOSED_WINDOW:
        return "closed window of an update";
    case MC146818_READ_ONLY:
        return "read-only register";
    case MC146818_TEST_PATTERN:
        return "divider test pattern";
    case MC146818_TOO_MANY_TICKS:
        return "too many ticks";
    case MC146818_BROKEN_RECORD:
        return "not a chip";
    case MC146818_INVALID_TIME:
        return "invalid time";
    case MC146818_UNKNOWN_KIND:
        return "unknown event kind";
    default:
        return "unknown answer";
    }
}

#ifdef __cplusplus
}
#endif

#endif
