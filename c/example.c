/* The worked example of docs/RULES.md, case 10, on a board of 6 slots: once as an order file, once call by
 * call, and once as packet rules on chip words. Prints the lines, and ends with status 1 where one differs. */
#include <inttypes.h>
#include <stdio.h>
#include <string.h>

#include "exchange.h"

enum { SLOTS = 6, CHIP_WORDS = 144 };

static const uint64_t PATTERN_9_REST = 0x9effffffffffffff;
static const uint64_t PATTERN_90 = 0x90ffffffffffffff;

static const char EXPECTED[] = "A 0 0 1\n"
                               "E 27 0 1\n"
                               "A 30 0 2\n"
                               "S 57 0 1\n"
                               "L 60 0 100\n"
                               "E 71 0 2\n"
                               "L 74 0 200\n";

static int differences = 0;

static void expect(bool holds, const char *what) {
    if (!holds) {
        fprintf(stderr, "differs: %s\n", what);
        differences += 1;
    }
}

/* Order files: numbers stand high byte first. */

struct file {
    uint8_t bytes[256];
    size_t length;
};

static void put(struct file *file, uint64_t number, int bytes) {
    for (int i = bytes - 1; i >= 0; i--)
        file->bytes[file->length++] = (uint8_t)(number >> (8 * i));
}

static void put_letter(struct file *file, char letter) {
    put(file, 0x4b54, 2);
    put(file, (uint8_t)letter, 1);
}

static void put_add(struct file *file, struct exchange_rule rule) {
    put_letter(file, 'A');
    put(file, rule.number, 2);
    put(file, rule.priority, 2);
    put(file, rule.action, 4);
    put(file, rule.word_a, 8);
    put(file, rule.word_b, 8);
}

static void put_look_up(struct file *file, uint64_t subject) {
    put_letter(file, 'L');
    put(file, subject, 8);
}

static struct file worked(struct exchange_rule first, struct exchange_rule second, uint64_t subject) {
    struct file file = {.length = 0};
    put_add(&file, first);
    put_letter(&file, 'E');
    put_add(&file, second);
    put_letter(&file, 'S');
    put_look_up(&file, subject);
    put_letter(&file, 'E');
    put_look_up(&file, subject);
    return file;
}

static void expect_lines(int64_t length, const uint8_t *lines) {
    expect(length == (int64_t)strlen(EXPECTED), "the number of bytes written");
    if (length >= 0)
        fwrite(lines, 1, (size_t)length, stdout);
    expect(memcmp(lines, EXPECTED, strlen(EXPECTED)) == 0, "the lines");
    expect(lines[strlen(EXPECTED)] == '.', "the buffer behind the lines");
}

/* As an order file. */

static void run_dial(struct exchange_rule first, struct exchange_rule second) {
    struct file file = worked(first, second, PATTERN_90);
    struct exchange_rule records[SLOTS] = {{0}};
    uint8_t lines[1024];
    memset(lines, '.', sizeof lines);
    expect(exchange_room(file.length) == 22 * (85 / 3 + 1), "the room for 85 bytes");
    expect(exchange_room(SIZE_MAX) == SIZE_MAX, "the room for all bytes that there are");

    records[0] = second;
    size_t room = exchange_room(file.length);
    expect(exchange_dial_run(records, SLOTS, file.bytes, file.length, lines, room - 1) == EXCHANGE_SHORT,
           "a buffer that is too short");
    static uint8_t long_file[32769];
    expect(exchange_dial_run(records, SLOTS, long_file, 32769, lines, sizeof lines) == EXCHANGE_LONG,
           "a file that is too long");
    expect(memcmp(&records[0], &second, sizeof second) == 0 && lines[0] == '.', "what a refusal leaves");

    expect_lines(exchange_dial_run(records, SLOTS, file.bytes, file.length, lines, room), lines);
    expect(records[0].number == 2 && records[1].number == 1 && records[2].number == 0, "the records");
}

/* The longest file: 10,922 steps without a ticket, and two bytes that are no order. */
static void run_longest(void) {
    static uint8_t orders[32768];
    static uint8_t lines[22 * (32768 / 3 + 1)];
    for (size_t i = 0; i < sizeof orders; i++)
        orders[i] = (uint8_t) "KTS"[i % 3];
    struct exchange_rule records[SLOTS] = {{0}};
    int64_t length = exchange_dial_run(records, SLOTS, orders, sizeof orders, lines, sizeof lines);
    const char last[] = "S 32763 9 0\n? 32766 14 0\n";
    expect(length > (int64_t)strlen(last), "the longest file");
    if (length > (int64_t)strlen(last))
        expect(memcmp(lines + length - strlen(last), last, strlen(last)) == 0, "the longest file's last lines");
}

static void run_packet(struct exchange_rule first, struct exchange_rule second, uint64_t subject) {
    struct file file = worked(first, second, subject);
    uint64_t words[CHIP_WORDS] = {0};
    uint8_t lines[1024];
    memset(lines, '.', sizeof lines);
    int64_t length = exchange_packet_run(words, CHIP_WORDS, file.bytes, file.length, lines, sizeof lines);
    expect_lines(length, lines);
    expect(words[47] >> 48 == 2 && words[46] >> 48 == 1, "the chip words");
}

/* Call by call. */

struct board {
    struct exchange_rule records[SLOTS];
    struct exchange_job job;
    struct exchange_ticket ticket;
};

static void print_call(struct board *board, struct exchange_call call, int place, const char *line) {
    struct exchange_answer answer = exchange_dial_call(board->records, SLOTS, 7, &board->job, &call);
    if (call.letter == 'A' && answer.refusal == 0)
        board->ticket = answer.ticket;
    char printed[64];
    snprintf(printed, sizeof printed, "%c %d %" PRIu32 " %" PRIu32, call.letter, place, answer.refusal,
             answer.value);
    puts(printed);
    expect(strcmp(printed, line) == 0, line);
}

static void call_dial(struct exchange_rule first, struct exchange_rule second) {
    static struct board board;
    exchange_dial_open(board.records, SLOTS, &board.job);
    struct exchange_call look_up = {.letter = 'L', .subject = PATTERN_90};

    print_call(&board, (struct exchange_call){.letter = 'A', .rule = first}, 0, "A 0 0 1");
    print_call(&board, (struct exchange_call){.letter = 'E', .ticket = board.ticket}, 27, "E 27 0 1");
    print_call(&board, (struct exchange_call){.letter = 'A', .rule = second}, 30, "A 30 0 2");
    print_call(&board, (struct exchange_call){.letter = 'S', .ticket = board.ticket}, 57, "S 57 0 1");
    print_call(&board, look_up, 60, "L 60 0 100");
    print_call(&board, (struct exchange_call){.letter = 'E', .ticket = board.ticket}, 71, "E 71 0 2");
    print_call(&board, look_up, 74, "L 74 0 200");

    /* And what the file cannot show: tickets, the number of the rule that wins, and a strange letter. */
    expect(board.ticket.board == 7 && board.ticket.rule == 2 && board.ticket.length == 2, "the ticket");
    struct exchange_answer answer = exchange_dial_call(board.records, SLOTS, 7, &board.job, &look_up);
    expect(answer.number == 2, "the rule that wins");
    struct exchange_call spent = {.letter = 'W', .ticket = board.ticket};
    answer = exchange_dial_call(board.records, SLOTS, 7, &board.job, &spent);
    expect(answer.refusal == 9, "a ticket that was given back");
    struct exchange_call strange = {.letter = 'Z'};
    answer = exchange_dial_call(board.records, SLOTS, 7, &board.job, &strange);
    expect(answer.refusal == 13, "a strange letter");
    struct exchange_call change = {.letter = 'C', .rule = {.number = 1, .action = 5}};
    answer = exchange_dial_call(board.records, SLOTS, 7, &board.job, &change);
    expect(answer.refusal == 0 && board.records[1].action == 5, "a change");
    struct exchange_call drop = {.letter = 'D', .rule = {.number = 1}};
    answer = exchange_dial_call(board.records, SLOTS, 7, &board.job, &drop);
    expect(answer.refusal == 0 && board.records[1].number == 0, "a drop");
}

static void call_packet(struct exchange_rule rule, uint64_t subject) {
    static uint64_t words[CHIP_WORDS];
    static struct exchange_job job;
    exchange_packet_open(words, CHIP_WORDS, &job);
    struct exchange_call add = {.letter = 'A', .rule = rule};
    struct exchange_answer answer = exchange_packet_call(words, CHIP_WORDS, 7, &job, &add);
    expect(answer.refusal == 0 && answer.value == 1, "a packet rule's add");
    struct exchange_call complete = {.letter = 'E', .ticket = answer.ticket};
    answer = exchange_packet_call(words, CHIP_WORDS, 7, &job, &complete);
    expect(answer.refusal == 0 && answer.value == 1, "a packet rule's complete");
    struct exchange_call look_up = {.letter = 'L', .subject = subject};
    answer = exchange_packet_call(words, CHIP_WORDS, 7, &job, &look_up);
    expect(answer.number == rule.number && answer.value == rule.action, "a packet's look-up");
}

int main(void) {
    struct exchange_rule first = {.number = 1, .priority = 10, .action = 100, .word_a = PATTERN_9_REST};
    struct exchange_rule second = {.number = 2, .priority = 20, .action = 200, .word_a = PATTERN_90};
    struct exchange_rule wide = {1, 10, 100, 0x9000, 0xf000};
    struct exchange_rule narrow = {2, 20, 200, 0x9000, 0xff00};

    puts("an order file on a dial board:");
    run_dial(first, second);
    run_longest();
    puts("the same by single calls:");
    call_dial(first, second);
    puts("packet rules on chip words:");
    run_packet(wide, narrow, 0x9042);
    call_packet(wide, 0x9142);

    puts(differences == 0 ? "all as docs/RULES.md says" : "not as docs/RULES.md says");
    return differences == 0 ? 0 : 1;
}
