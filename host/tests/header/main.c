/* The proved terminal called from C: the worked example of the scope document through every function of the header, each
 * number by its name, lengths that are wrong, short or 0, and both cards. */
#include <assert.h>
#include <string.h>

#include "solkverva.h"

/* One word more than what is used: it keeps its contents. */
enum { REMEMBERED = SOLKVERVA_REMEMBERED_WORDS + 1, ANSWER = SOLKVERVA_ANSWER_WORDS + 1, UNTOUCHED = 0xEEEE };

/* RT 5, area A, stack 256, overwrite-invalid on and the rest off. */
static uint16_t settings[SOLKVERVA_SETTINGS_WORDS] = {5, 0, 256, 1};

static uint16_t ram[SOLKVERVA_RAM_WORDS];
static uint16_t reply[SOLKVERVA_REPLY_WORDS];
static uint16_t remembered[REMEMBERED] = {0, 0, UNTOUCHED};
static uint16_t answer[ANSWER];
static uint16_t receive[SOLKVERVA_VALUE_WORDS] = {0x2864, 0x0102, 0, 4, 0x1111, 0x2222, 0x3333, 0x4444};
static uint16_t transmit[SOLKVERVA_VALUE_WORDS] = {0x2C62};
/* Words of a value before there were transfers, and where the transmit command is now. */
enum { OLD_VALUE_WORDS = 36, TRANSMIT_COMMAND = 36 };
static uint8_t bytes[SOLKVERVA_RECORD_BYTES];

static uint16_t from_bytes(size_t ram_words, size_t reply_words, size_t bytes_length)
{
    memset(answer, 0xEE, sizeof answer);
    return solkverva_message(ram, ram_words, reply, reply_words, settings, SOLKVERVA_SETTINGS_WORDS, remembered,
                             REMEMBERED, bytes, bytes_length, answer, ANSWER);
}

static uint16_t from_value(const uint16_t *value)
{
    memset(answer, 0xEE, sizeof answer);
    return solkverva_message_value(ram, SOLKVERVA_RAM_WORDS, reply, SOLKVERVA_REPLY_WORDS, settings,
                                   SOLKVERVA_SETTINGS_WORDS, remembered, REMEMBERED, value, SOLKVERVA_VALUE_WORDS,
                                   answer, ANSWER);
}

static uint16_t example(void)
{
    return from_bytes(SOLKVERVA_RAM_WORDS, SOLKVERVA_REPLY_WORDS, SOLKVERVA_RECORD_BYTES);
}

static void start(void)
{
    memset(ram, 0, sizeof ram);
    memset(reply, 0, sizeof reply);
    memset(remembered, 0, 2 * sizeof remembered[0]);
    ram[0x0143] = 0x047E;
    ram[0x01A3] = 0x0120;
    ram[0x0163] = 0x0500;
    ram[0x0500] = 0xAAAA;
    ram[0x0501] = 0xBBBB;
    assert(solkverva_write(receive, SOLKVERVA_VALUE_WORDS, bytes, sizeof bytes) == SOLKVERVA_DONE);
}

static void check_answer(uint16_t block_status, uint16_t cell, uint16_t before, uint16_t after, uint16_t sent,
                         uint16_t interrupt)
{
    const uint16_t expected[ANSWER] = {SOLKVERVA_DONE, block_status, cell, before,    after,
                                       0x2800,         1,            sent, interrupt, UNTOUCHED};
    assert(memcmp(answer, expected, sizeof expected) == 0);
}

static void the_reader_and_the_writer(void)
{
    uint16_t read_back[SOLKVERVA_VALUE_WORDS];

    start();
    assert(bytes[0] == 0x28 && bytes[1] == 0x64 && bytes[7] == 4 && bytes[16] == 0x11 && bytes[79] == 0);
    assert(solkverva_read(bytes, sizeof bytes, read_back, SOLKVERVA_VALUE_WORDS) == SOLKVERVA_DONE);
    assert(memcmp(read_back, receive, sizeof receive) == 0);
}

static void the_worked_example(void)
{
    start();
    assert(example() == SOLKVERVA_DONE);
    check_answer(0x8080, 3, 0x047E, 0x0402, 0, 0x0403);
    assert(ram[0x047E] == 0x1111 && ram[0x047F] == 0x2222 && ram[0x0400] == 0x3333 && ram[0x0401] == 0x4444);
    assert(ram[0x0143] == 0x0402 && ram[0x0100] == 4 && ram[0] == 0x8080 && ram[1] == 0x0102);
    assert(reply[0] == 0x2800 && remembered[0] == 0x2864 && remembered[1] == 0x2800 && remembered[2] == UNTOUCHED);

    assert(from_value(transmit) == SOLKVERVA_DONE);
    check_answer(0x8000, 35, 0x0500, 0x0500, 2, 0x0003);
    assert(reply[0] == 0x2800 && reply[1] == 0xAAAA && reply[2] == 0xBBBB && reply[3] == 0);
}

static uint16_t ram_before[SOLKVERVA_RAM_WORDS];

/* A refused message has returned its number and left it with zeros in answer, and changed nothing else. */
static void refused(uint16_t result, uint16_t number)
{
    const uint16_t expected[ANSWER] = {number, 0, 0, 0, 0, 0, 0, 0, 0, UNTOUCHED};
    const uint16_t reply_before[SOLKVERVA_REPLY_WORDS] = {0};
    const uint16_t remembered_before[REMEMBERED] = {0x1234, 0x5678, UNTOUCHED};

    assert(result == number);
    assert(memcmp(answer, expected, sizeof expected) == 0);
    assert(memcmp(ram, ram_before, sizeof ram) == 0);
    assert(memcmp(reply, reply_before, sizeof reply) == 0);
    assert(memcmp(remembered, remembered_before, sizeof remembered) == 0);
}

/* The example with one word changed. */
static uint16_t with(uint16_t *word, uint16_t changed)
{
    const uint16_t kept = *word;
    uint16_t result;

    *word = changed;
    result = example();
    *word = kept;
    return result;
}

static uint16_t with_command(uint8_t high, uint8_t low)
{
    bytes[0] = high;
    bytes[1] = low;
    return example();
}

static void each_number(void)
{
    start();
    memcpy(ram_before, ram, sizeof ram);
    remembered[0] = 0x1234;
    remembered[1] = 0x5678;
    refused(from_bytes(SOLKVERVA_RAM_WORDS - 1, SOLKVERVA_REPLY_WORDS, sizeof bytes), SOLKVERVA_RAM_LENGTH);
    refused(from_bytes(SOLKVERVA_RAM_WORDS, SOLKVERVA_REPLY_WORDS - 1, sizeof bytes), SOLKVERVA_REPLY_ROOM);
    refused(with(&settings[0], 31), SOLKVERVA_BAD_SETTINGS);
    refused(with(&settings[2], 300), SOLKVERVA_BAD_SETTINGS);
    refused(from_bytes(SOLKVERVA_RAM_WORDS, SOLKVERVA_REPLY_WORDS, sizeof bytes - 1), SOLKVERVA_RECORD_LENGTH);
    refused(with(&ram[0x0100], 0x0200), SOLKVERVA_UNSOUND_STACK);
    refused(with(&ram[0x0143], 0x0100), SOLKVERVA_UNSOUND_CELL);
    bytes[2] = 1;
    refused(example(), SOLKVERVA_RECORD_LAYOUT);
    bytes[2] = 0;
    refused(with_command(0x30, 0x64), SOLKVERVA_OTHER_ADDRESS);
    refused(with_command(0x28, 0x04), SOLKVERVA_MODE_SUBADDRESS);

    receive[3] = 34;
    refused(from_value(receive), SOLKVERVA_RECORD_LAYOUT);
    assert(solkverva_write(receive, SOLKVERVA_VALUE_WORDS, bytes, sizeof bytes) == SOLKVERVA_RECORD_LAYOUT);
    assert(bytes[0] == 0 && bytes[79] == 0);
    receive[3] = 4;
}

/* Three words from terminal 2, subaddress 2, on bus B; then the same without a status. */
static void a_transfer(void)
{
    uint16_t value[SOLKVERVA_VALUE_WORDS] = {0x2863, 0x0304, SOLKVERVA_BUS_B | SOLKVERVA_TRANSFER, 3, 1, 2, 3};
    uint16_t read_back[SOLKVERVA_VALUE_WORDS + 1];

    start();
    value[TRANSMIT_COMMAND] = 0x1443;
    assert(solkverva_write(value, SOLKVERVA_VALUE_WORDS, bytes, sizeof bytes) == SOLKVERVA_DONE);
    assert(bytes[0] == 0x28 && bytes[1] == 0x63 && bytes[2] == 0x14 && bytes[3] == 0x43);
    assert(bytes[6] == 9 && bytes[7] == 3);
    read_back[SOLKVERVA_VALUE_WORDS] = UNTOUCHED;
    assert(solkverva_read(bytes, sizeof bytes, read_back, SOLKVERVA_VALUE_WORDS + 1) == SOLKVERVA_DONE);
    assert(memcmp(read_back, value, sizeof value) == 0 && read_back[SOLKVERVA_VALUE_WORDS] == UNTOUCHED);

    assert(example() == SOLKVERVA_DONE);
    check_answer(0xA880, 3, 0x047E, 0x0401, 0, 0x0403);
    assert(ram[0] == 0xA880 && ram[1] == 0x0304 && ram[2] == 0x047E && ram[3] == 0x2863 && remembered[0] == 0x2863);

    value[2] = SOLKVERVA_TRANSFER | SOLKVERVA_NO_STATUS;
    assert(from_value(value) == SOLKVERVA_RECORD_LAYOUT);
    memset(&value[3], 0, 4 * sizeof value[3]);
    assert(from_value(value) == SOLKVERVA_DONE);
    assert(answer[1] == 0x9E00 && answer[5] == 0x2C00 && answer[6] == 0 && answer[8] == 0x0013 && ram[7] == 0x2863);
    value[2] = SOLKVERVA_TRANSFER | SOLKVERVA_WRONG_GAP | SOLKVERVA_BAD_SECOND;
    assert(from_value(value) == SOLKVERVA_DONE && answer[1] == 0x9C06);
    value[2] = SOLKVERVA_WRONG_SYNC | SOLKVERVA_INVALID_WORD;
    assert(from_value(value) == SOLKVERVA_RECORD_LAYOUT);
    value[TRANSMIT_COMMAND] = 0;
    assert(from_value(value) == SOLKVERVA_DONE && answer[1] == 0x9418);
    value[0] = 0x2C62;
    value[2] = SOLKVERVA_TRANSFER;
    assert(from_value(value) == SOLKVERVA_RECORD_LAYOUT);
}

/* A caller that lends the 36 words of old: no transmit command is read from them or put into them. */
static void an_old_caller(void)
{
    uint16_t value[SOLKVERVA_VALUE_WORDS];

    start();
    memset(value, 0xEE, sizeof value);
    assert(solkverva_read(bytes, sizeof bytes, value, OLD_VALUE_WORDS) == SOLKVERVA_DONE);
    assert(memcmp(value, receive, OLD_VALUE_WORDS * sizeof value[0]) == 0 && value[TRANSMIT_COMMAND] == UNTOUCHED);
    assert(solkverva_message_value(ram, SOLKVERVA_RAM_WORDS, reply, SOLKVERVA_REPLY_WORDS, settings,
                                   SOLKVERVA_SETTINGS_WORDS, remembered, REMEMBERED, value, OLD_VALUE_WORDS, answer,
                                   ANSWER) == SOLKVERVA_DONE);
    assert(answer[1] == 0x8080 && ram[0x0143] == 0x0402);

    bytes[2] = 0x14;
    bytes[3] = 0x43;
    bytes[6] = SOLKVERVA_TRANSFER;
    assert(solkverva_read(bytes, sizeof bytes, value, OLD_VALUE_WORDS) == SOLKVERVA_DONE);
    assert(value[2] == SOLKVERVA_TRANSFER && value[TRANSMIT_COMMAND] == UNTOUCHED);
    assert(solkverva_write(value, OLD_VALUE_WORDS, bytes, sizeof bytes) == SOLKVERVA_DONE);
    assert(bytes[2] == 0 && bytes[3] == 0 && bytes[6] == SOLKVERVA_TRANSFER);
}

/* The example as a message to address 31, to a terminal with this address and so many words of settings. */
static uint16_t at_31(uint16_t address, size_t settings_words)
{
    settings[0] = address;
    memset(answer, 0xEE, sizeof answer);
    return solkverva_message(ram, SOLKVERVA_RAM_WORDS, reply, SOLKVERVA_REPLY_WORDS, settings, settings_words,
                             remembered, REMEMBERED, bytes, sizeof bytes, answer, ANSWER);
}

/* Twelve words can turn broadcast off; eleven, which were all there were, have it on. */
static void broadcast_on_and_off(void)
{
    enum { ELEVEN = 11, ALL = SOLKVERVA_SETTINGS_WORDS, OFF = 11, SEPARATE = 4 };

    start();
    bytes[0] = 0xF8;
    settings[OFF] = 1;
    assert(at_31(5, ELEVEN) == SOLKVERVA_DONE && answer[5] == 0x2810 && answer[6] == 0);
    assert(at_31(31, ELEVEN) == SOLKVERVA_BAD_SETTINGS);
    assert(at_31(5, ALL) == SOLKVERVA_OTHER_ADDRESS);
    assert(at_31(32, ALL) == SOLKVERVA_BAD_SETTINGS);
    assert(at_31(31, ALL) == SOLKVERVA_DONE && answer[5] == 0xF800 && answer[6] == 1 && reply[0] == 0xF800);
    /* Broadcast cells are not there: with them, this one would point to the stack. */
    settings[SEPARATE] = 1;
    assert(at_31(31, ALL) == SOLKVERVA_DONE && answer[2] == 3);
    bytes[0] = 0xFC;
    bytes[1] = 0x62;
    memset(bytes + 7, 0, sizeof bytes - 7);
    assert(at_31(31, ALL) == SOLKVERVA_DONE && answer[1] == 0x8000 && answer[7] == 2 && reply[2] == 0xBBBB);
    settings[OFF] = 0;
    assert(at_31(31, ALL) == SOLKVERVA_BAD_SETTINGS);
    assert(at_31(5, ALL) == SOLKVERVA_DONE && answer[1] == 0x9401 && answer[7] == 0);
    settings[SEPARATE] = 0;
}

static void the_whole_area(void)
{
    const uint32_t unsound = (uint32_t)SOLKVERVA_UNSOUND_CELL << 16 | 1;

    start();
    /* Subaddress 1 points to the stack. */
    assert(solkverva_check_area(ram, SOLKVERVA_RAM_WORDS, settings, SOLKVERVA_SETTINGS_WORDS) == unsound);
    assert(solkverva_check_area(ram, SOLKVERVA_RAM_WORDS - 1, settings, SOLKVERVA_SETTINGS_WORDS) ==
           (uint32_t)SOLKVERVA_RAM_LENGTH << 16);
    /* No settings at all: address 0, and stack size 0, which is refused. */
    assert(solkverva_check_area(ram, SOLKVERVA_RAM_WORDS, NULL, 0) == (uint32_t)SOLKVERVA_BAD_SETTINGS << 16);
}

static uint16_t listing[SOLKVERVA_LISTING_WORDS + 1];
static uint16_t counts[SOLKVERVA_COUNTS_WORDS + 1];
static uint16_t unsound[SOLKVERVA_UNSOUND_WORDS + 1];
static uint16_t pairs[SOLKVERVA_PAIRS_WORDS + 1];

static uint16_t label_cell(size_t ram_words, uint16_t cell)
{
    memset(listing, 0xEE, sizeof listing);
    return solkverva_label_cell(ram, ram_words, settings, SOLKVERVA_SETTINGS_WORDS, cell, listing,
                                SOLKVERVA_LISTING_WORDS + 1);
}

static uint16_t label_area(size_t ram_words)
{
    memset(counts, 0xEE, sizeof counts);
    memset(unsound, 0xEE, sizeof unsound);
    memset(pairs, 0xEE, sizeof pairs);
    return solkverva_label_area(ram, ram_words, settings, SOLKVERVA_SETTINGS_WORDS, counts, SOLKVERVA_COUNTS_WORDS + 1,
                                unsound, SOLKVERVA_UNSOUND_WORDS + 1, pairs, SOLKVERVA_PAIRS_WORDS + 1);
}

/* Subaddress 3 receives in a circle at 0400 to 047F; 4 receives at 0470, and transmits what stands there. Transmit cell 3
 * at 0500 meets none. All others lie in the stack. */
static void the_labels(void)
{
    const uint16_t of_three[6] = {2, 4, 1, 36, 0, 0};

    start();
    ram[0x0144] = 0x0470;
    ram[0x0164] = 0x0470;
    assert(label_cell(SOLKVERVA_RAM_WORDS, 3) == SOLKVERVA_DONE);
    assert(memcmp(listing, of_three, sizeof of_three) == 0);
    assert(listing[SOLKVERVA_LISTING_WORDS - 1] == 0 && listing[SOLKVERVA_LISTING_WORDS] == UNTOUCHED);
    assert(label_cell(SOLKVERVA_RAM_WORDS, 35) == SOLKVERVA_DONE && listing[0] == 0);

    assert(label_area(SOLKVERVA_RAM_WORDS) == SOLKVERVA_DONE);
    assert(counts[0] == 56 && counts[1] == 3 && counts[2] == UNTOUCHED);
    assert(unsound[0] == 1 && unsound[1] == 2 && unsound[2] == 5 && unsound[55] == 62 && unsound[56] == 0);
    assert(unsound[SOLKVERVA_UNSOUND_WORDS - 1] == 0 && unsound[SOLKVERVA_UNSOUND_WORDS] == UNTOUCHED);
    assert(pairs[0] == 0x0304 && pairs[1] == 0x0324 && pairs[2] == 0x0424 && pairs[3] == UNTOUCHED);
}

static void refused_labels(void)
{
    start();
    /* Cell 1 is unsound, 67 is a broadcast cell, which is not read here, and there is no cell 96. */
    assert(label_cell(SOLKVERVA_RAM_WORDS, 1) == SOLKVERVA_UNSOUND_CELL);
    assert(label_cell(SOLKVERVA_RAM_WORDS, 67) == SOLKVERVA_UNSOUND_CELL);
    assert(label_cell(SOLKVERVA_RAM_WORDS, 96) == SOLKVERVA_UNSOUND_CELL);
    assert(listing[0] == 0 && listing[SOLKVERVA_LISTING_WORDS - 1] == 0);
    assert(listing[SOLKVERVA_LISTING_WORDS] == UNTOUCHED);
    assert(label_cell(SOLKVERVA_RAM_WORDS - 1, 3) == SOLKVERVA_RAM_LENGTH);
    assert(label_area(SOLKVERVA_RAM_WORDS - 1) == SOLKVERVA_RAM_LENGTH);
    assert(counts[0] == 0 && counts[1] == 0 && counts[2] == UNTOUCHED);
    assert(unsound[0] == 0 && unsound[SOLKVERVA_UNSOUND_WORDS - 1] == 0 && pairs[0] == UNTOUCHED);
    ram[0x0100] = 0x0200;
    assert(label_cell(SOLKVERVA_RAM_WORDS, 3) == SOLKVERVA_UNSOUND_STACK);
    assert(label_area(SOLKVERVA_RAM_WORDS) == SOLKVERVA_UNSOUND_STACK);
}

static uint16_t description[SOLKVERVA_CELL_DESCRIPTION_WORDS + 1];

static uint16_t describe_cell(size_t ram_words, uint16_t cell)
{
    memset(description, 0xEE, sizeof description);
    return solkverva_describe_cell(ram, ram_words, settings, SOLKVERVA_SETTINGS_WORDS, cell, description,
                                   SOLKVERVA_CELL_DESCRIPTION_WORDS + 1);
}

static uint16_t describe_stack(size_t ram_words)
{
    memset(description, 0xEE, sizeof description);
    return solkverva_describe_stack(ram, ram_words, settings, SOLKVERVA_SETTINGS_WORDS, description,
                                    SOLKVERVA_STACK_DESCRIPTION_WORDS + 1);
}

/* Receive cell 3 is a circle, cell 1 lies in the stack, and broadcast cell 4 is double and not read. */
static void what_they_are_like(void)
{
    const uint16_t three[9] = {0, 3, 1, 3, 0x047E, 0x0400, 128, 0, UNTOUCHED};
    const uint16_t one[9] = {0, 1, 1, 1, 0, 0, 32, SOLKVERVA_CELL_MEETS_STACK, UNTOUCHED};
    const uint16_t four[9] = {2, 4, 0, 2, 0x02F1, 0x02C0, 64, SOLKVERVA_CELL_DOUBLE_OFF, UNTOUCHED};
    const uint16_t nothing[9] = {0, 0, 0, 0, 0, 0, 0, 0, UNTOUCHED};
    const uint16_t stack[5] = {0, 0, 256, 0, UNTOUCHED};
    const uint16_t faults = SOLKVERVA_STACK_POINTER_OFF | SOLKVERVA_STACK_MEETS_HIGH_AREA;
    const uint16_t off[5] = {0x0302, 0x0300, 256, faults, UNTOUCHED};

    start();
    ram[0x0184] = 0x02F1;
    ram[0x01A4] = 0x8000;
    assert(describe_cell(SOLKVERVA_RAM_WORDS, 3) == SOLKVERVA_DONE && memcmp(description, three, sizeof three) == 0);
    assert(describe_cell(SOLKVERVA_RAM_WORDS, 1) == SOLKVERVA_DONE && memcmp(description, one, sizeof one) == 0);
    assert(describe_cell(SOLKVERVA_RAM_WORDS, 68) == SOLKVERVA_DONE && memcmp(description, four, sizeof four) == 0);
    assert(describe_cell(SOLKVERVA_RAM_WORDS - 1, 3) == SOLKVERVA_RAM_LENGTH);
    assert(memcmp(description, nothing, sizeof nothing) == 0);
    assert(describe_stack(SOLKVERVA_RAM_WORDS) == SOLKVERVA_DONE && memcmp(description, stack, sizeof stack) == 0);
    ram[0x0100] = 0x0302;
    assert(describe_stack(SOLKVERVA_RAM_WORDS) == SOLKVERVA_DONE && memcmp(description, off, sizeof off) == 0);
    assert(describe_stack(SOLKVERVA_RAM_WORDS - 1) == SOLKVERVA_RAM_LENGTH);
    assert(memcmp(description, nothing, 4 * sizeof nothing[0]) == 0 && description[4] == UNTOUCHED);
}

static uint64_t numbers[SOLKVERVA_RAM_WORDS];
static uint16_t marks[SOLKVERVA_RAM_WORDS];
static uint64_t records;
static uint64_t last[2] = {0, UNTOUCHED};
static uint16_t part[SOLKVERVA_PART_WORDS + 1] = {0, 0, 0, UNTOUCHED};

static uint16_t fill(size_t ram_words)
{
    return solkverva_who_fill(ram, ram_words, numbers, SOLKVERVA_RAM_WORDS, marks, SOLKVERVA_RAM_WORDS, settings,
                              SOLKVERVA_SETTINGS_WORDS, remembered, REMEMBERED, &records, 1, bytes, sizeof bytes);
}

static void entry_is(uint16_t address, uint64_t number, uint16_t kind, uint16_t cell, uint16_t place)
{
    assert(solkverva_who_entry(numbers, SOLKVERVA_RAM_WORDS, marks, SOLKVERVA_RAM_WORDS, address, last, 2, part,
                               SOLKVERVA_PART_WORDS + 1) == SOLKVERVA_DONE);
    assert(last[0] == number && part[0] == kind && part[1] == cell && part[2] == place);
    assert(last[1] == UNTOUCHED && part[SOLKVERVA_PART_WORDS] == UNTOUCHED);
}

static void entry_refused(size_t numbers_length, size_t marks_words, uint16_t address, uint16_t number)
{
    last[0] = part[0] = part[1] = part[2] = UNTOUCHED;
    assert(solkverva_who_entry(numbers, numbers_length, marks, marks_words, address, last, 2, part,
                               SOLKVERVA_PART_WORDS + 1) == number);
    assert(last[0] == 0 && part[0] == 0 && part[1] == 0 && part[2] == 0);
    assert(last[1] == UNTOUCHED && part[SOLKVERVA_PART_WORDS] == UNTOUCHED);
}

/* A part whose tables do not fit the RAM, or whose settings are refused: nothing changes. */
static void fill_refused(size_t numbers_length, size_t marks_words, uint16_t stack_size, uint16_t number)
{
    static uint16_t ram_before[SOLKVERVA_RAM_WORDS], marks_before[SOLKVERVA_RAM_WORDS];
    static uint64_t numbers_before[SOLKVERVA_RAM_WORDS];
    const uint16_t command = remembered[0], status = remembered[1], size = settings[2];
    const uint64_t records_before = records;

    memcpy(ram_before, ram, sizeof ram_before);
    memcpy(marks_before, marks, sizeof marks_before);
    memcpy(numbers_before, numbers, sizeof numbers_before);
    settings[2] = stack_size;
    assert(solkverva_who_fill(ram, SOLKVERVA_RAM_WORDS, numbers, numbers_length, marks, marks_words, settings,
                              SOLKVERVA_SETTINGS_WORDS, remembered, REMEMBERED, &records, 1, bytes, sizeof bytes) ==
           number);
    settings[2] = size;
    assert(memcmp(ram_before, ram, sizeof ram_before) == 0 && memcmp(marks_before, marks, sizeof marks_before) == 0);
    assert(memcmp(numbers_before, numbers, sizeof numbers_before) == 0 && records == records_before);
    assert(remembered[0] == command && remembered[1] == status);
}

/* Tables that are short where an entry is read, and entries that no replay leaves. */
static void tables_that_do_not_fit(void)
{
    const uint16_t mark = marks[0x047F];

    entry_refused(SOLKVERVA_RAM_WORDS, 0x047F, 0x047F, SOLKVERVA_RAM_LENGTH);
    entry_refused(SOLKVERVA_RAM_WORDS, 0, 0, SOLKVERVA_RAM_LENGTH);
    entry_refused(SOLKVERVA_RAM_WORDS - 1, SOLKVERVA_RAM_WORDS, 0x047F, SOLKVERVA_RAM_LENGTH);
    entry_refused(SOLKVERVA_RAM_WORDS - 1, SOLKVERVA_RAM_WORDS - 1, 0x047F, SOLKVERVA_RAM_LENGTH);
    entry_refused(0, 0, 0, SOLKVERVA_RAM_LENGTH);
    marks[0x047F] = 0;
    entry_refused(SOLKVERVA_RAM_WORDS, SOLKVERVA_RAM_WORDS, 0x047F, SOLKVERVA_RECORD_LAYOUT);
    marks[0x047F] = mark;
    marks[0x0500] = mark;
    entry_refused(SOLKVERVA_RAM_WORDS, SOLKVERVA_RAM_WORDS, 0x0500, SOLKVERVA_RECORD_LAYOUT);
    marks[0x0500] = 0;
    entry_is(0x047F, 1, 1, 3, 2);
    entry_is(0x0500, 0, 0, 0, 0);
}

/* The example twice: the second message writes from 0402 on. The refused parts before, between and after count for
 * nothing. */
static void who_put_a_word_there(void)
{
    start();
    assert(fill(SOLKVERVA_RAM_WORDS - 1) == SOLKVERVA_RAM_LENGTH && records == 0);
    fill_refused(SOLKVERVA_RAM_WORDS, SOLKVERVA_RAM_WORDS - 1, 256, SOLKVERVA_RAM_LENGTH);
    assert(fill(SOLKVERVA_RAM_WORDS) == SOLKVERVA_DONE && records == 1);
    fill_refused(SOLKVERVA_RAM_WORDS, SOLKVERVA_RAM_WORDS, 300, SOLKVERVA_BAD_SETTINGS);
    fill_refused(SOLKVERVA_RAM_WORDS - 1, SOLKVERVA_RAM_WORDS, 300, SOLKVERVA_RAM_LENGTH);
    assert(fill(SOLKVERVA_RAM_WORDS) == SOLKVERVA_DONE && records == 2);
    fill_refused(0, 0, 256, SOLKVERVA_RAM_LENGTH);
    entry_is(0x047F, 1, 1, 3, 2);
    entry_is(0x0402, 2, 1, 3, 1);
    entry_is(0x0143, 2, 2, 3, 0);
    entry_is(0x0003, 1, 3, 3, 4);
    entry_is(0x0100, 2, 4, 3, 0);
    entry_is(0x0500, 0, 0, 0, 0);
    entry_refused(SOLKVERVA_RAM_WORDS, SOLKVERVA_RAM_WORDS, SOLKVERVA_RAM_WORDS, SOLKVERVA_ADDRESS_BEYOND);
    tables_that_do_not_fit();

    start();
    assert(solkverva_who(ram, SOLKVERVA_RAM_WORDS, settings, SOLKVERVA_SETTINGS_WORDS, 0x0400, bytes, sizeof bytes, last,
                         2, part, SOLKVERVA_PART_WORDS + 1) == SOLKVERVA_DONE);
    assert(last[0] == 1 && part[0] == 1 && part[1] == 3 && part[2] == 3 && ram[0x0400] == 0x3333);
    assert(solkverva_who(ram, SOLKVERVA_RAM_WORDS, settings, SOLKVERVA_SETTINGS_WORDS, SOLKVERVA_RAM_WORDS, bytes,
                         sizeof bytes, last, 2, part, SOLKVERVA_PART_WORDS + 1) == SOLKVERVA_ADDRESS_BEYOND);
    assert(last[0] == 0 && part[0] == 0 && part[1] == 0 && part[2] == 0);
}

/* A record made long, heard, and made short again; and what cannot go back. */
static void long_records(void)
{
    uint8_t made_long[SOLKVERVA_LONG_RECORD_BYTES + 1], back[SOLKVERVA_RECORD_BYTES + 1];
    uint16_t value[SOLKVERVA_LONG_VALUE_WORDS];

    start();
    memset(made_long, 0xEE, sizeof made_long);
    assert(solkverva_longer(bytes, sizeof bytes, made_long, sizeof made_long) == SOLKVERVA_DONE);
    assert(memcmp(made_long, bytes, sizeof bytes) == 0 && made_long[95] == 0 && made_long[96] == 0xEE);
    memset(back, 0xEE, sizeof back);
    assert(solkverva_shorter(made_long, SOLKVERVA_LONG_RECORD_BYTES, back, sizeof back) == SOLKVERVA_DONE);
    assert(memcmp(back, bytes, sizeof bytes) == 0 && back[80] == 0xEE);

    assert(solkverva_read_long(made_long, SOLKVERVA_LONG_RECORD_BYTES, value, SOLKVERVA_LONG_VALUE_WORDS) ==
           SOLKVERVA_DONE);
    assert(value[0] == 0x2864 && value[1] == 0x0102 && value[37] == 0 && value[38] == 0);
    value[37] = 0x0001;
    value[38] = 7;
    assert(solkverva_write_long(value, SOLKVERVA_LONG_VALUE_WORDS, made_long, sizeof made_long) == SOLKVERVA_DONE);
    assert(made_long[80] == 0 && made_long[81] == 1 && made_long[82] == 0 && made_long[83] == 7);
    assert(solkverva_shorter(made_long, SOLKVERVA_LONG_RECORD_BYTES, back, sizeof back) == SOLKVERVA_GOING_BACK_LOSES);
    assert(back[0] == 0 && back[79] == 0 && back[80] == 0xEE);

    memset(answer, 0xEE, sizeof answer);
    assert(solkverva_message_long(ram, SOLKVERVA_RAM_WORDS, reply, SOLKVERVA_REPLY_WORDS, settings,
                                  SOLKVERVA_SETTINGS_WORDS, remembered, REMEMBERED, made_long,
                                  SOLKVERVA_LONG_RECORD_BYTES, answer, ANSWER) == SOLKVERVA_DONE);
    check_answer(0x8080, 3, 0x047E, 0x0402, 0, 0x0403);
    assert(ram[1] == 0x0102);

    made_long[95] = 1;
    assert(solkverva_read_long(made_long, SOLKVERVA_LONG_RECORD_BYTES, value, SOLKVERVA_LONG_VALUE_WORDS) ==
           SOLKVERVA_RECORD_LAYOUT);
    assert(value[0] == 0 && value[38] == 0);
    assert(solkverva_shorter(made_long, SOLKVERVA_LONG_RECORD_BYTES, back, sizeof back) == SOLKVERVA_RECORD_LAYOUT);
    assert(solkverva_shorter(bytes, sizeof bytes, back, sizeof back) == SOLKVERVA_RECORD_LENGTH);
    assert(solkverva_longer(made_long, sizeof made_long, NULL, 0) == SOLKVERVA_RECORD_LENGTH);
}

/* An op code word, with the parity that it needs. */
static uint16_t op_code_word(uint16_t op_code, uint16_t condition)
{
    uint16_t word = (uint16_t)(op_code << 10 | 0x0140 | condition), ones = 0;
    for (uint16_t rest = word; rest; rest >>= 1) ones += rest & 1;
    return ones % 2 ? word : word | 0x8000;
}

/* Two messages, the second only if GP3 is set, and a halt, over a trace of one record: in one run, step by step, without
 * an outcome, and refused. */
static void a_controller(void)
{
    enum { ALWAYS = 0x0F, GP3 = 0x03, MACHINE = SOLKVERVA_MACHINE_NUMBERS + 1, RAN = SOLKVERVA_RAN_NUMBERS + 1 };
    uint64_t machine[MACHINE], ran[RAN], budget;
    start();
    const uint16_t list[] = {op_code_word(SOLKVERVA_EXECUTE, ALWAYS), 0x0600, op_code_word(SOLKVERVA_EXECUTE, GP3), 0x0608,
                             op_code_word(SOLKVERVA_HALT, ALWAYS)};
    memcpy(ram + 0x0400, list, sizeof list);

    machine[MACHINE - 1] = ran[RAN - 1] = UNTOUCHED;
    assert(solkverva_control(ram, SOLKVERVA_RAM_WORDS, 0x0400, 0, 100, bytes, sizeof bytes, machine, MACHINE, ran, RAN) ==
           SOLKVERVA_DONE);
    assert(ran[0] == SOLKVERVA_ENDED_BY_HALT && ran[1] == 3 && ran[2] == UNTOUCHED);
    assert(machine[0] == 0x0406 && machine[8] == sizeof bytes && machine[9] == UNTOUCHED);

    assert(solkverva_control(ram, SOLKVERVA_RAM_WORDS, 0x0400, 0, 0, bytes, sizeof bytes, machine, MACHINE, ran, RAN) ==
           SOLKVERVA_DONE);
    for (budget = 0; ran[0] == SOLKVERVA_ENDED_BY_BUDGET; budget += ran[1])
        assert(solkverva_control_on(ram, SOLKVERVA_RAM_WORDS, 1, bytes, sizeof bytes, machine, MACHINE, ran, RAN) ==
               SOLKVERVA_DONE);
    assert(ran[0] == SOLKVERVA_ENDED_BY_HALT && budget == 3 && machine[0] == 0x0406);

    assert(solkverva_control(ram, SOLKVERVA_RAM_WORDS, 0x0400, 1 << GP3, 100, bytes, sizeof bytes, machine, MACHINE, ran,
                             RAN) == SOLKVERVA_DONE);
    assert(ran[0] == SOLKVERVA_ENDED_WITHOUT_OUTCOME && ran[1] == 1 && machine[0] == 0x0402);
    machine[0] = SOLKVERVA_RAM_WORDS - 1;
    assert(solkverva_control_on(ram, SOLKVERVA_RAM_WORDS, 1, bytes, sizeof bytes, machine, MACHINE, ran, RAN) ==
           SOLKVERVA_DONE);
    assert(ran[0] == SOLKVERVA_ENDED_BY_BAD_INSTRUCTION && ran[1] == 0);

    ran[1] = UNTOUCHED;
    assert(solkverva_control(ram, SOLKVERVA_RAM_WORDS, SOLKVERVA_RAM_WORDS - 1, 0, 9, bytes, sizeof bytes, machine, MACHINE,
                             ran, RAN) == SOLKVERVA_NO_ROOM_TO_START);
    assert(ran[0] == 0 && ran[1] == 0 && machine[0] == SOLKVERVA_RAM_WORDS - 1);
    assert(solkverva_control_on(ram, 0, 9, bytes, sizeof bytes, machine, MACHINE, ran, RAN) == SOLKVERVA_RAM_LENGTH);
}

static uint16_t large[SOLKVERVA_LARGE_RAM_WORDS + 1];
static uint64_t large_numbers[SOLKVERVA_LARGE_RAM_WORDS];
static uint16_t large_marks[SOLKVERVA_LARGE_RAM_WORDS];

/* The example's message for a circle of 8,192 words, at its end. */
static void start_large(void)
{
    start();
    memset(large, 0, sizeof large);
    large[0x0143] = 0x3FFE;
    large[0x01A3] = 0x01E0;
    large[SOLKVERVA_LARGE_RAM_WORDS] = UNTOUCHED;
}

static uint16_t from_large(size_t ram_words)
{
    return solkverva_message(large, ram_words, reply, SOLKVERVA_REPLY_WORDS, settings, SOLKVERVA_SETTINGS_WORDS,
                             remembered, REMEMBERED, bytes, sizeof bytes, answer, ANSWER);
}

/* The same words are sound on the 64K card and unsound on the other; no other length is taken. */
static void the_64k_card(void)
{
    const size_t none[] = {0, 4095, 4097, 12288, 65535, 65537};
    uint16_t description[SOLKVERVA_STACK_DESCRIPTION_WORDS];
    uint16_t listing[1];
    size_t i;

    start_large();
    for (i = 0; i < sizeof none / sizeof none[0]; i++) {
        assert(from_large(none[i]) == SOLKVERVA_RAM_LENGTH);
        assert(solkverva_check_area(large, none[i], settings, SOLKVERVA_SETTINGS_WORDS) ==
               (uint32_t)SOLKVERVA_RAM_LENGTH << 16);
    }
    assert(from_large(SOLKVERVA_RAM_WORDS) == SOLKVERVA_UNSOUND_CELL);
    assert(from_large(SOLKVERVA_LARGE_RAM_WORDS) == SOLKVERVA_DONE);
    assert(large[0x3FFF] == 0x2222 && large[0x2000] == 0x3333 && large[0x2001] == 0x4444 && large[0x0143] == 0x2002);
    assert(large[SOLKVERVA_LARGE_RAM_WORDS] == UNTOUCHED);

    /* Two cells of the last block, and the stack's last entry before it. */
    large[0x0141] = large[0x0142] = 0xFFE0;
    assert(solkverva_label_cell(large, SOLKVERVA_LARGE_RAM_WORDS, settings, SOLKVERVA_SETTINGS_WORDS, 1, listing, 1) ==
               SOLKVERVA_DONE &&
           listing[0] == 1);
    large[0x0100] = 0xFFFC;
    assert(solkverva_describe_stack(large, SOLKVERVA_LARGE_RAM_WORDS, settings, SOLKVERVA_SETTINGS_WORDS, description,
                                    SOLKVERVA_STACK_DESCRIPTION_WORDS) == SOLKVERVA_DONE);
    assert(description[1] == 0xFF00 && description[3] == 0);
    assert(solkverva_describe_stack(large, SOLKVERVA_RAM_WORDS, settings, SOLKVERVA_SETTINGS_WORDS, description,
                                    SOLKVERVA_STACK_DESCRIPTION_WORDS) == SOLKVERVA_DONE);
    assert(description[3] == SOLKVERVA_STACK_POINTER_OVER + SOLKVERVA_STACK_BLOCK_OVER_END);
}

static uint16_t entry_of_large(size_t length, uint16_t address)
{
    return solkverva_who_entry(large_numbers, length, large_marks, length, address, last, 2, part,
                               SOLKVERVA_PART_WORDS + 1);
}

/* Tables of 65,536 entries, filled twice. */
static void who_on_the_64k_card(void)
{
    uint64_t filled = 0;
    int round;

    start_large();
    for (round = 1; round <= 2; round++) {
        assert(solkverva_who_fill(large, SOLKVERVA_LARGE_RAM_WORDS, large_numbers, SOLKVERVA_LARGE_RAM_WORDS, large_marks,
                                  SOLKVERVA_LARGE_RAM_WORDS, settings, SOLKVERVA_SETTINGS_WORDS, remembered, REMEMBERED,
                                  &filled, 1, bytes, sizeof bytes) == SOLKVERVA_DONE);
    }
    assert(filled == 2);
    assert(entry_of_large(SOLKVERVA_LARGE_RAM_WORDS, 0x2001) == SOLKVERVA_DONE && last[0] == 1 && part[2] == 4);
    assert(entry_of_large(SOLKVERVA_LARGE_RAM_WORDS, 0x2002) == SOLKVERVA_DONE && last[0] == 2 && part[2] == 1);
    assert(entry_of_large(SOLKVERVA_LARGE_RAM_WORDS, 0xFFFF) == SOLKVERVA_DONE && last[0] == 0);
    assert(entry_of_large(SOLKVERVA_LARGE_RAM_WORDS - 1, 0x2001) == SOLKVERVA_RAM_LENGTH);
    assert(entry_of_large(SOLKVERVA_RAM_WORDS, 0x2001) == SOLKVERVA_ADDRESS_BEYOND);
}

/* The number tells of a change in RAM where nothing else is lent. */
static void nothing_lent(void)
{
    start();
    assert(solkverva_message(ram, SOLKVERVA_RAM_WORDS, reply, SOLKVERVA_REPLY_WORDS, settings,
                             SOLKVERVA_SETTINGS_WORDS, NULL, 0, bytes, sizeof bytes, NULL, 0) == SOLKVERVA_DONE);
    assert(ram[0x0143] == 0x0402);
    assert(solkverva_message_value(ram, SOLKVERVA_RAM_WORDS, reply, SOLKVERVA_REPLY_WORDS, settings, 4, NULL, 0,
                                   transmit, 1, NULL, 0) == SOLKVERVA_DONE);
    assert(ram[0x0100] == 8);
    assert(solkverva_message(NULL, 0, NULL, 0, NULL, 0, NULL, 0, NULL, 0, NULL, 0) == SOLKVERVA_RAM_LENGTH);
    assert(solkverva_label_cell(ram, SOLKVERVA_RAM_WORDS, settings, 4, 3, NULL, 0) == SOLKVERVA_DONE);
    assert(solkverva_label_area(ram, SOLKVERVA_RAM_WORDS, settings, 4, NULL, 0, NULL, 0, NULL, 0) == SOLKVERVA_DONE);
    assert(solkverva_describe_cell(ram, SOLKVERVA_RAM_WORDS, settings, 4, 3, NULL, 0) == SOLKVERVA_DONE);
    assert(solkverva_describe_stack(ram, SOLKVERVA_RAM_WORDS, settings, 4, NULL, 0) == SOLKVERVA_DONE);
    assert(solkverva_who_fill(ram, SOLKVERVA_RAM_WORDS, NULL, 0, NULL, 0, settings, 4, NULL, 0, NULL, 0, bytes,
                              sizeof bytes) == SOLKVERVA_RAM_LENGTH);
    assert(ram[0x0100] == 8);
    assert(solkverva_who_fill(ram, SOLKVERVA_RAM_WORDS, numbers, SOLKVERVA_RAM_WORDS, marks, SOLKVERVA_RAM_WORDS,
                              settings, 4, NULL, 0, NULL, 0, bytes, sizeof bytes) == SOLKVERVA_DONE);
    assert(ram[0x0100] == 12);
    assert(solkverva_who_entry(NULL, 0, NULL, 0, 0, NULL, 0, NULL, 0) == SOLKVERVA_RAM_LENGTH);
    assert(solkverva_who(ram, SOLKVERVA_RAM_WORDS, settings, 4, 0, NULL, 0, NULL, 0, NULL, 0) == SOLKVERVA_DONE);
    assert(solkverva_control(ram, SOLKVERVA_RAM_WORDS, 0, 0, 9, NULL, 0, NULL, 0, NULL, 0) == SOLKVERVA_DONE);
    assert(solkverva_control_on(NULL, 0, 9, NULL, 0, NULL, 0, NULL, 0) == SOLKVERVA_RAM_LENGTH);
    assert(solkverva_read(NULL, 0, NULL, 0) == SOLKVERVA_RECORD_LENGTH);
    assert(solkverva_read(bytes, sizeof bytes, NULL, 0) == SOLKVERVA_DONE);
    assert(solkverva_write(NULL, 0, NULL, 0) == SOLKVERVA_DONE);
}

int main(void)
{
    the_reader_and_the_writer();
    the_worked_example();
    each_number();
    a_transfer();
    an_old_caller();
    broadcast_on_and_off();
    the_whole_area();
    the_labels();
    refused_labels();
    what_they_are_like();
    who_put_a_word_there();
    long_records();
    a_controller();
    the_64k_card();
    who_on_the_64k_card();
    nothing_lent();
    return 0;
}
