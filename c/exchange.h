/* The rule table of a telephone exchange, for C.
 *
 * The caller owns all memory: the records or chip words, the board's own record of its open add, and the
 * buffers. No function keeps a pointer. What each call does, answers and refuses is in docs/RULES.md.
 *
 * A board must be opened before its first call, and every call on it is given the same records or words,
 * the same board and the same job. A ticket in C is a plain value: nothing here keeps a program from losing one.
 *
 * No pointer may be null, also where its length is 0, and no two may overlap. README.md, "Linking from C",
 * says what else a caller owes, and how to link.
 */
#ifndef EXCHANGE_H
#define EXCHANGE_H

#include <stdbool.h>
#include <stddef.h>
#include <stdint.h>

/* A rule, and a record of a record bank: number 0 marks an empty one. */
struct exchange_rule {
    uint16_t number;
    uint16_t priority;
    uint32_t action;
    uint64_t word_a;
    uint64_t word_b;
};

/* What a ticket names. */
struct exchange_ticket {
    uint16_t board;
    uint16_t rule;
    uint16_t length;
};

struct exchange_chain {
    uint16_t places[480];
    uint16_t length;
};

/* A board: its open add, if one is open. Opening sets it; only calls change it. */
struct exchange_job {
    bool busy;
    struct exchange_rule rule;
    struct exchange_chain chain;
    uint16_t made;
};

/* One call: its letter is A, S, E, W, D, C or L as in an order file. A uses rule; S, E and W use ticket;
 * D uses rule.number; C uses rule.number and rule.action; L uses subject. The rest is not looked at. */
struct exchange_call {
    uint8_t letter;
    struct exchange_ticket ticket;
    struct exchange_rule rule;
    uint64_t subject;
};

/* The refusal number, or 0. A: value is the announced count, and ticket the new ticket. S, E and W: value
 * is the call's answer. D and C: 0. L: number and value are those of the rule that wins, number 0 means
 * none. What is not named here is 0. A letter that is none of the seven is refused with 13. */
struct exchange_answer {
    uint32_t refusal;
    uint32_t value;
    uint16_t number;
    struct exchange_ticket ticket;
};

/* A dial board on records: every record is a slot, up to the first 480. */
void exchange_dial_open(struct exchange_rule *records, size_t records_length, struct exchange_job *job);
struct exchange_answer exchange_dial_call(struct exchange_rule *records, size_t records_length,
                                          uint16_t board, struct exchange_job *job,
                                          const struct exchange_call *call);

/* A packet board on chip words: 48 slots to each whole block of 144 words, up to ten blocks. */
void exchange_packet_open(uint64_t *words, size_t words_length, struct exchange_job *job);
struct exchange_answer exchange_packet_call(uint64_t *words, size_t words_length, uint16_t board,
                                            struct exchange_job *job, const struct exchange_call *call);

/* Runs an order file on a board that is opened for it, and writes the answers' lines to the buffer.
 * Answers the number of bytes written, or, with nothing touched, EXCHANGE_LONG for more than 32,768 bytes
 * of orders and EXCHANGE_SHORT for a buffer shorter than exchange_room says. EXCHANGE_MEMORY means that
 * memory failed on the way, or that the lines did not fit all the same: the board's orders were served as
 * far as that, and no line is written. These two need malloc and free; the calls above need neither. */
#define EXCHANGE_LONG (-1)
#define EXCHANGE_SHORT (-2)
#define EXCHANGE_MEMORY (-3)

size_t exchange_room(size_t orders_length);
int64_t exchange_dial_run(struct exchange_rule *records, size_t records_length, const uint8_t *orders,
                          size_t orders_length, uint8_t *lines, size_t lines_length);
int64_t exchange_packet_run(uint64_t *words, size_t words_length, const uint8_t *orders,
                            size_t orders_length, uint8_t *lines, size_t lines_length);

#endif
