/* A sensor is read through the cache. Each page is probed first, so that a table outside memory is found before the read. */
#include "../include/mc88200.h"

#include <inttypes.h>
#include <stdio.h>

enum { RAM_WORDS = 0x10000, SSR = 0x008, SCR = 0x004, SAR = 0x00C, UAPR = 0x204, PROBE_USER = 0x20 };

static uint32_t unit[16], patc[112], lines[1280], cells[4096], ram[RAM_WORDS], rom[4];
static mc88200_fault fault;

/* A refusal would be an error of this program. */
static void must(uint32_t number) {
    if (number != 0) {
        printf("refused: %" PRIu32 "\n", number);
    }
}

static uint32_t get(uint32_t offset) {
    uint32_t reply[1] = {0};
    must(mc88200_read_register(unit, &fault, offset, reply));
    return reply[0];
}

static uint32_t set(uint32_t offset, uint32_t value) {
    uint32_t reply[1] = {0};
    must(mc88200_write_register(unit, &fault, patc, lines, cells, 4096, ram, RAM_WORDS, rom, 4, offset, value, reply));
    return reply[0];
}

/* The tables: segment 3 leads to page 5 at frame 0000A000; segment 4's page table lies outside memory. */
static void set_up(void) {
    must(mc88200_reset(unit, &fault, patc, lines, cells, 4096, 1));
    ram[0x400C / 4] = 0x00006001;
    ram[0x4010 / 4] = 0x00800001;
    ram[0x6014 / 4] = 0x0000A001;
    ram[0xA124 / 4] = 254;
    set(UAPR, 0x00004001);
}

static void read_sensor(uint32_t address) {
    uint32_t reply[24] = {0};
    set(SAR, address);
    set(SCR, PROBE_USER);
    if ((get(SSR) & 1) == 0) {
        printf("%08" PRIX32 ": no reading, failing address %08" PRIX32 "\n", address, get(SAR));
        return;
    }
    must(mc88200_access(unit, &fault, patc, lines, cells, 4096, ram, RAM_WORDS, rom, 4, address, 0, 15, 0, reply));
    if (reply[0] != 1) {
        printf("%08" PRIX32 ": no reading, failing address %08" PRIX32 "\n", address, reply[2]);
        return;
    }
    printf("%08" PRIX32 ": reading %" PRIu32 ".%" PRIu32 " (%" PRIu32 " words moved)\n", address, reply[1] / 10, reply[1] % 10,
           reply[3]);
}

int main(void) {
    set_up();
    read_sensor(0x00C05124);
    read_sensor(0x00C05124);
    read_sensor(0x01002000);
    return 0;
}
