/* Vaznirokh: a proved bench model of Ethernet switches. Link libvaznirokh.a, which `second/archive` writes into target/staticlib (x86-64 Linux).

   Each function answers 0, or the number of a refusal (the table below); after a refusal nothing that was lent is changed.
   A run of numbers is lent for the call as a pointer and its length in entries. Runs that are lent to one call must not overlap. */
#ifndef VAZNIROKH_H
#define VAZNIROKH_H

#include <stddef.h>
#include <stdint.h>

#ifdef __cplusplus
extern "C" {
#endif

/* Why a call was refused. */
enum {
    VAZ_TOO_SHORT = 1,      /* fewer than 40 bytes */
    VAZ_MODEL = 2,          /* model not allowed */
    VAZ_ORDER = 3,          /* order not allowed */
    VAZ_PORTS = 4,          /* ports not allowed */
    VAZ_SPEEDUP = 5,        /* speedup not allowed */
    VAZ_SLOTS = 6,          /* slots above 4,096 */
    VAZ_ARRIVALS = 7,       /* arrivals above 4,096 */
    VAZ_LAYOUT = 8,         /* an offset, the total or the trace's length is not what the counts make it */
    VAZ_CAPACITY = 9,       /* a capacity not allowed */
    VAZ_SLOT_COUNTS = 10,   /* slot counts do not add up to arrivals */
    VAZ_PORT = 11,          /* an arrival's port is N or more */
    VAZ_LOG_ROOM = 12,      /* log shorter than 3 (model 1) or 4 (model 2) words for each arrival */
    VAZ_SWITCH = 13,        /* the lent words are no allowed switch */
    VAZ_FULL = 14,          /* 4,096 arrivals already taken */
    VAZ_LAST_SLOT = 15,     /* closing would pass slot number 8,192 (for a drain: slot number plus limit is above 8,192) */
    VAZ_LIMIT = 16,         /* drain limit above 4,096 */
    VAZ_TABLE_LENGTH = 17,  /* writer: a table's length is not what the header words make it */
    VAZ_OUTPUT_ROOM = 18,   /* writer: output shorter than the total */
    VAZ_LENT_LENGTH = 30    /* a lent run of the wrong length (below); tested before anything else */
};

#define VAZ_COUNTS 6     /* words of counts: arrived, dropped, crossed, outmoved, sent, held */
#define VAZ_HEADER 6     /* words of a header: model, order, ports, speedup, slots, arrivals */
#define VAZ_STATE 1066   /* words of a switch: model, order, ports, speedup, slot number, arrived, dropped, crossed, outmoved,
                            sent; 256 input, 16 output and 256 crosspoint capacities; as many lengths; queue (i, j) at i * 16 + j */

/* The verdict on a trace: 1 to 11. */
uint32_t vaz_examine(const uint8_t *trace, size_t trace_len);

/* Runs a whole trace: 1 to 12, or 30 where counts_len is not VAZ_COUNTS. The log gets one word for each event,
   kind * 2^28 + slot * 2^16 + cycle * 2^8 + input * 16 + output (kinds: 1 accepted, 2 dropped, 3 moved out of an input queue,
   4 moved from a crosspoint to an output queue, 5 sent); words after the last event keep what they held. */
uint32_t vaz_run(const uint8_t *trace, size_t trace_len, uint32_t *log, size_t log_len, uint32_t *counts, size_t counts_len);

/* Writes a trace: 2 to 7, 17, 9 to 11, 18, or 30 where header_len is not VAZ_HEADER. Bytes of out beyond the total stay. */
uint32_t vaz_write(const uint32_t *header, size_t header_len, const uint16_t *capacities, size_t capacities_len,
                   const uint16_t *slot_counts, size_t slot_counts_len, const uint8_t *arrivals, size_t arrivals_len,
                   uint8_t *out, size_t out_len);

/* The steps, on a switch that the caller lends as VAZ_STATE words. Any other state_len is refused by 30. */

/* A new switch from a trace's header and capacities: 1 to 11. */
uint32_t vaz_new(const uint8_t *trace, size_t trace_len, uint32_t *state, size_t state_len);

/* One arrival in the switch's slot: 13, 11, 14. answer is one word: 1 accepted, 2 dropped. */
uint32_t vaz_arrive(uint32_t *state, size_t state_len, uint32_t input, uint32_t output, uint32_t *answer, size_t answer_len);

/* Closes the slot (all cycles, then sending): 13, 15. */
uint32_t vaz_close(uint32_t *state, size_t state_len);

/* Closes slots without arrivals until the switch is empty or the limit is reached: 13, 16, 15. answer is two words: 1 empty or 0 not,
   then the count of quiet slots. */
uint32_t vaz_drain(uint32_t *state, size_t state_len, uint32_t limit, uint32_t *answer, size_t answer_len);

#ifdef __cplusplus
}
#endif

#endif
