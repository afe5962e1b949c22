/* One MC88200 cache/memory management unit. All memory is the host's; no call keeps a pointer, allocates or prints.
 *
 * A unit is four arrays, a fault pair and 4,096 words of cache data, each in memory of its own:
 *   unit[16]     IDR SCR SSR SAR SCTR SAPR UAPR, the PATC's pointer, BWP0 to BWP7
 *   fault        PFSR and PFAR
 *   patc[112]    56 entries: page word (S bit 1, V bit 0), then frame word
 *   lines[1280]  256 sets: four tag words with their state in bits 1-0, then the use code
 *   cells        exactly 4,096 words; set s, line n, word w is at 16s + 4n + w
 * RAM stands at physical address 0: a multiple of 4 words, at most 4,194,304. ROM stands at FFE00000: a multiple of 4
 * words, at most 262,144. A length of 0 is allowed; its pointer must not be null even so.
 *
 * Each call returns 0, or the number of the first of these that applies, and then nothing that was lent has changed:
 *   1 RAM's length  2 ROM's length  3 cache data is not 4,096 words  4 address no multiple of 4  5 enables over 15
 *   6 register offset over 4,092 or no multiple of 4  7 image is not 22,039 bytes  8 a field's tag or length
 *   9 a bit that is to be zero, a pointer over 55, a use code that is no order  10 two lines or entries alike
 *   11 output shorter than 22,039 bytes
 */
#ifndef MC88200_H
#define MC88200_H

#include <stddef.h>
#include <stdint.h>

#ifdef __cplusplus
extern "C" {
#endif

typedef struct mc88200_fault {
    uint32_t status;  /* PFSR: code in bits 18-16: 3 bus error, 4 segment, 5 page, 6 supervisor, 7 write violation */
    uint32_t address; /* PFAR */
} mc88200_fault;

/* Reset; `number` names the unit, in bits 31-24 of IDR. Call it before the first access. Refuses 3. */
uint32_t mc88200_reset(uint32_t unit[16], mc88200_fault *fault, uint32_t patc[112], uint32_t lines[1280],
                       uint32_t *cells, size_t cells_len, uint8_t number);

/* One bus access. kind: bit 7 supervisor, bit 6 write, bit 5 lock. Enables 8, 4, 2, 1 name bytes 31-24 down to 7-0.
 * reply: [0] 0 idle, 1 a word was read, 2 written, 3 fault; [1] the word, or the fault's code; [2] the fault's address;
 * [3] words moved on the M bus; [4] transactions listed; from [5] three words for each: bits (0 write, 1 G, 2 IM, 3 LK,
 * 4 CI), address, words; what is not used is 0. A fault sets the fault pair. Refuses 1 to 5. */
uint32_t mc88200_access(uint32_t unit[16], mc88200_fault *fault, uint32_t patc[112], uint32_t lines[1280],
                        uint32_t *cells, size_t cells_len, uint32_t *ram, size_t ram_len,
                        const uint32_t *rom, size_t rom_len,
                        uint32_t address, uint32_t kind, uint32_t enables, uint32_t word, uint32_t reply[24]);

/* Another master's transaction is snooped. kind: bit 0 G, bit 1 IM. reply: 0 clear, 1 retry, 2 failed. Refuses 1, 3, 4. */
uint32_t mc88200_snoop(uint32_t unit[16], uint32_t lines[1280], uint32_t *cells, size_t cells_len,
                       uint32_t *ram, size_t ram_len, uint32_t address, uint32_t kind, uint32_t reply[1]);

/* The register at an offset. reply: its value. Refuses 6. */
uint32_t mc88200_read_register(const uint32_t unit[16], const mc88200_fault *fault, uint32_t offset, uint32_t reply[1]);

/* A register is written; a write to SCR (004) runs its command. reply: words moved. Refuses 1, 2, 3, 6. */
uint32_t mc88200_write_register(uint32_t unit[16], mc88200_fault *fault, uint32_t patc[112], uint32_t lines[1280],
                                uint32_t *cells, size_t cells_len, uint32_t *ram, size_t ram_len,
                                const uint32_t *rom, size_t rom_len,
                                uint32_t offset, uint32_t value, uint32_t reply[1]);

/* The unit's image of 22,039 bytes is written to `out`; bytes past it stay. Refuses 3, 11. */
uint32_t mc88200_save(const uint32_t unit[16], const mc88200_fault *fault, const uint32_t patc[112],
                      const uint32_t lines[1280], const uint32_t *cells, size_t cells_len, uint8_t *out, size_t out_len);

/* The unit becomes what an image holds. Refuses 3, 7 to 10. */
uint32_t mc88200_restore(uint32_t unit[16], mc88200_fault *fault, uint32_t patc[112], uint32_t lines[1280],
                         uint32_t *cells, size_t cells_len, const uint8_t *image, size_t image_len);

#ifdef __cplusplus
}
#endif

#endif
