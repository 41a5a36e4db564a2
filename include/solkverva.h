/* The proved terminal, for callers in C and Rust. scripts/proved library builds what to link, for x86-64: seven archives
 * in target/built/target/staticlib/, libc_questions.a, libc_message_bytes.a (solkverva_message), libc_message_values.a
 * (solkverva_message_value), libc_message_long.a (solkverva_message_long), libc_who.a (solkverva_who and the two like it),
 * libc_long.a (all else of long records) and libc_control.a (solkverva_control and solkverva_control_on). None needs
 * another, so their order is free.
 *
 * Every function returns, with an answer for any contents and any lengths of what is lent, and writes nothing else.
 *
 * A slice passes as a pointer and then a length, in words of 16 bits, in bytes or in numbers of 64 bits. The caller sees
 * to three things:
 *   - The pointer is aligned as C aligns what it points to (a word's address is even), and so much is there. With
 *     length 0 the pointer is not followed: it may be NULL.
 *   - Nothing that the function writes overlaps anything else of the same call.
 *   - Until it returns, no other thread writes what is lent or reads what the function writes.
 *
 * Some lengths are refused where they are wrong: ram has 4,096 words or the 65,536 of the 64K card, no other number;
 * numbers and marks each as many as ram; reply at least 33; a record that is read 80 bytes, a long one 96, no more and no
 * fewer. Which card it is, ram's length alone says: the end of RAM is that of the ram that is lent, so that the same
 * words may be sound on one card and unsound on the other.
 *
 * All else may have any length. What is missing of settings, remembered, records or value is read as 0. What remembered,
 * answer, value, listing, counts, unsound, pairs, description, records, last, part, machine, ran or the bytes that are
 * written have no room for is dropped; where they are longer, the rest keeps its contents.
 *
 * settings: RT address; area (0 is A, any other word B); stack size in words; then yes/no (0 is no): overwrite-invalid,
 *   separate-broadcast, illegal-receive-disable, busy-receive-disable, busy-always, service request, subsystem flag,
 *   terminal flag, broadcast off. With eleven words, as there were before, broadcast is on. Where it is off, 31 is an
 *   address like the others, no message is a broadcast, and separate-broadcast has no effect.
 * remembered: last command, last status. Both 0 at first; lend each message what the one before left.
 * value: command, time tag, flags, count, thirty-two words, transmit command. A flags or count word over 255 counts as
 *   255, which breaks the layout.
 * long value: the 37 words of value, then the time tag's upper half and the member number. What is missing is read as 0.
 * answer: number, block status, cell number, pointer before, pointer after, status word, 1 where the status was sent
 *   and else 0, data words sent, interrupt word.
 * listing: how many cells are listed; then two words for each, in rising number: the cell's number, and 1 where it is
 *   able to write or 0 where it only sends; then 0.
 * counts: how many cells are unsound; how many pairs there are in all, whatever room pairs have.
 * unsound: the numbers of the unsound cells, rising; then 0.
 * pairs: a word for each pair, rising: the lower number in the high byte, the higher in the low byte.
 *
 * description: of a cell its kind (0 receive, 1 transmit, 2 broadcast), its subaddress, 1 where the whole-area check
 *   reads it or else 0, its scheme (1 single, 2 double, 3 circular), its pointer, the first word of its window, how many
 *   words the window has, its faults; of the stack its pointer, the first word of its block, how many words the block
 *   has, its faults. Faults are added up; there are none, 0, exactly where it is sound.
 *
 * numbers, marks: for each address of RAM a number and a word, all 0 at first; solkverva_who_fill fills them, and
 *   solkverva_who_entry tells what they say. Lend both with as many as RAM has words, 4,096 or 65,536: with any other
 *   length of either, both functions answer 1. A number and a word that solkverva_who_fill did not leave together are answered with 5.
 * records: one number, how many records of the trace have gone by, 0 at first. A trace in parts needs its room: without
 *   it every part counts its records from 1.
 * last: one number, that of the last record that wrote the word, counted from 1; 0 where it is as in the image.
 * part: what that record wrote there (1 a data word, 2 a lookup pointer, 3 a word of the stack, 4 the stack pointer; 0
 *   where the word is as in the image); the cell of its message; the place, counted from 1, of a data word in its
 *   message or of a stack word in its descriptor, else 0.
 *
 * machine: what stands between two instructions of a bus controller's list, nine numbers: the address of the next
 *   instruction, which may lie behind RAM; the flags GP0 to GP7, GP0 in the lowest bit; what the last message told, added
 *   up (1 no status, 2 another fault, 4 a good block transfer; 0 before the first); how many calls are open; the four
 *   addresses to return to, the first call's first; the trace's place in bytes. What is missing is read as 0; of the flags
 *   the lowest eight bits count, of the last message the lowest three, and more than four open calls count as four.
 * ran: how a run ended, and how many instructions were carried out.
 *
 * A cell's number is its subaddress, with 32 added for transmit and 64 for broadcast.
 *
 * RT-to-RT transfers: a record with SOLKVERVA_TRANSFER is a message that another terminal sent to this one. Its bytes
 * 2-3, the last word of a value, hold the command that the other had; any word may stand there, it is not judged and
 * not stored. SOLKVERVA_NO_STATUS, SOLKVERVA_WRONG_GAP and SOLKVERVA_BAD_SECOND say what went wrong before the first
 * data word, alone or together. A record breaks its layout (5) with SOLKVERVA_TRANSFER on a transmit command, with one
 * of these three or a transmit command but no SOLKVERVA_TRANSFER, or with one of the three and a count that is not 0.
 *
 * Long records: 96 bytes, for sessions that outlast a tag of 16 bits. Bytes 0-79 are a record as above, with the tag's
 * lower half; 80-81 the tag's upper half, 82-83 a member number, any of either; 84-95 zero. A terminal hears the first 80
 * bytes alone: the stack has the lower half. solkverva_longer and solkverva_shorter go from one to the other and back.
 *
 * A caller built before there were transfers lends values of 36 words. What still holds: those words are where they
 * were, records and values with flags of 0 to 7 get the answers that they got, and the transmit command of a value of
 * 36 words is read as 0 and not written. What to change, where records may hold transfers:
 *   - Lend 37 words, SOLKVERVA_VALUE_WORDS; with 36 a transfer that is read and written again loses its transmit
 *     command.
 *   - The reader and the messages accept flags 8 to 127 by the rules above, where they answered 5.
 *   - Bits 11, 9, 2 and 1 of block status, which were always 0, tell the transfer and its three faults.
 */
#ifndef SOLKVERVA_H
#define SOLKVERVA_H

#include <stddef.h>
#include <stdint.h>

#ifdef __cplusplus
extern "C" {
#endif

/* How long each is. */
enum {
    SOLKVERVA_RAM_WORDS = 4096,
    SOLKVERVA_LARGE_RAM_WORDS = 65536, /* of the 64K card */
    SOLKVERVA_REPLY_WORDS = 33,
    SOLKVERVA_SETTINGS_WORDS = 12,
    SOLKVERVA_REMEMBERED_WORDS = 2,
    SOLKVERVA_VALUE_WORDS = 37,
    SOLKVERVA_LONG_VALUE_WORDS = 39,
    SOLKVERVA_ANSWER_WORDS = 9,
    SOLKVERVA_LISTING_WORDS = 179, /* the most: how many, and two for each of 89 cells */
    SOLKVERVA_COUNTS_WORDS = 2,
    SOLKVERVA_UNSOUND_WORDS = 90,
    SOLKVERVA_PAIRS_WORDS = 4005, /* the most there can be */
    SOLKVERVA_CELL_DESCRIPTION_WORDS = 8,
    SOLKVERVA_STACK_DESCRIPTION_WORDS = 4,
    SOLKVERVA_PART_WORDS = 3,
    SOLKVERVA_MACHINE_NUMBERS = 9,
    SOLKVERVA_RAN_NUMBERS = 2,
    SOLKVERVA_RECORD_BYTES = 80,
    SOLKVERVA_LONG_RECORD_BYTES = 96
};

/* Flags of a record, added up. 128 is none. */
enum {
    SOLKVERVA_BUS_B = 1,
    SOLKVERVA_WRONG_SYNC = 2,
    SOLKVERVA_INVALID_WORD = 4,
    SOLKVERVA_TRANSFER = 8,   /* an RT-to-RT transfer, in which this terminal receives */
    SOLKVERVA_NO_STATUS = 16, /* of a transfer: the transmitter gave no status */
    SOLKVERVA_WRONG_GAP = 32, /* of a transfer: a wrong gap, sync or address in that status */
    SOLKVERVA_BAD_SECOND = 64 /* of a transfer: a bad second command */
};

/* The numbers, tested in this order: each function tests those about things that it is given, and the first that holds
 * is its answer. With a refusal RAM, reply, remembered, pairs, numbers, marks, records and machine keep their contents, and
 * all else that is handed back is zero (but for the cell that the whole-area check adds to 9). */
enum {
    SOLKVERVA_DONE = 0,
    SOLKVERVA_RAM_LENGTH = 1,      /* RAM is neither 4,096 nor 65,536 words, or numbers or marks are not as many */
    SOLKVERVA_REPLY_ROOM = 2,      /* reply buffer under 33 words */
    SOLKVERVA_BAD_SETTINGS = 3,    /* RT address over 30 (31 with broadcast off), or stack size none of the four */
    SOLKVERVA_RECORD_LENGTH = 4,   /* record is not 80 bytes, long record not 96 */
    SOLKVERVA_RECORD_LAYOUT = 5,   /* record breaks its layout, or what numbers and marks hold of an address does */
    SOLKVERVA_OTHER_ADDRESS = 6,   /* not own address, and not 31 with broadcast on */
    SOLKVERVA_MODE_SUBADDRESS = 7, /* subaddress 0 or 31 */
    SOLKVERVA_UNSOUND_STACK = 8,   /* stack unsound */
    SOLKVERVA_UNSOUND_CELL = 9,    /* the message's cell unsound, or a cell of the area, or the cell that is asked for */
    SOLKVERVA_GOING_BACK_LOSES = 10, /* a tag's upper half or a member number, not 0, would be lost */
    SOLKVERVA_ADDRESS_BEYOND = 12, /* an address beyond the RAM */
    SOLKVERVA_NO_ROOM_TO_START = 15 /* a start address with fewer than two words left */
};

/* How a controller's run ends: the first number of ran, 0 where it was refused. */
enum {
    SOLKVERVA_ENDED_BY_HALT = 1,
    SOLKVERVA_ENDED_BY_BAD_INSTRUCTION = 2, /* even parity, bits 9-5 not 01010, none of the six op codes, a pair outside
                                               RAM, a call at depth four, a return at depth zero */
    SOLKVERVA_ENDED_WITHOUT_OUTCOME = 3,    /* no whole record is left, or the next breaks its layout */
    SOLKVERVA_ENDED_BY_BUDGET = 4
};

/* The op codes that a run knows, bits 14-10 of an op code word. Bit 15 makes the parity of all sixteen bits odd, bits 9-5
 * are 01010, bit 4 inverts the condition, bits 3-0 name it: 0 to 7 the flags, 8 no status, 9 another fault, A a good block
 * transfer, C 8 or 9, F always; B, D and E never hold. */
enum {
    SOLKVERVA_EXECUTE = 0x01,
    SOLKVERVA_JUMP = 0x02,
    SOLKVERVA_CALL = 0x03,
    SOLKVERVA_RETURN = 0x04,
    SOLKVERVA_HALT = 0x07,
    SOLKVERVA_FLAGS = 0x0C /* bit n of its parameter sets flag n, bit n + 8 clears it, both toggle it */
};

/* Why a cell is unsound, added up: the last number of its description. */
enum {
    SOLKVERVA_CELL_POINTER_OUTSIDE = 1,  /* its pointer is outside RAM */
    SOLKVERVA_CELL_WINDOW_OVER_END = 2,  /* its window goes over RAM's end */
    SOLKVERVA_CELL_DOUBLE_OFF = 4,       /* its double pointer is no multiple of 32 */
    SOLKVERVA_CELL_MEETS_LOW_AREA = 8,   /* its window meets the fixed area 0100-0247 */
    SOLKVERVA_CELL_MEETS_HIGH_AREA = 16, /* its window meets the fixed area 0300-03FF */
    SOLKVERVA_CELL_MEETS_STACK = 32      /* its window meets the active stack */
};

/* Why the stack is unsound, added up. */
enum {
    SOLKVERVA_STACK_POINTER_OFF = 1,      /* its pointer is no multiple of 4 */
    SOLKVERVA_STACK_POINTER_OVER = 2,     /* its pointer is over 0FFC, on the 64K card over FFFC */
    SOLKVERVA_STACK_BLOCK_OVER_END = 4,   /* its block goes over RAM's end */
    SOLKVERVA_STACK_MEETS_LOW_AREA = 8,   /* its block meets the fixed area 0100-0247 */
    SOLKVERVA_STACK_MEETS_HIGH_AREA = 16  /* its block meets the fixed area 0300-03FF */
};

/* The whole-area check: the number (0, 1, 3, 8 or 9) in the upper 16 bits, and in the lower with 9 the lowest unsound
 * cell, else 0. */
uint32_t solkverva_check_area(const uint16_t *ram, size_t ram_words, const uint16_t *settings, size_t settings_words);

/* One message from the bytes of a record: the number, 0 to 9. It is also the first word of answer, so an answer that is
 * short or not lent at all (length 0) loses the other words only, and never whether RAM has changed. */
uint16_t solkverva_message(uint16_t *ram, size_t ram_words, uint16_t *reply, size_t reply_words,
                           const uint16_t *settings, size_t settings_words, uint16_t *remembered,
                           size_t remembered_words, const uint8_t *bytes, size_t bytes_length, uint16_t *answer,
                           size_t answer_words);

/* One message from a record value: the same, but never 4. */
uint16_t solkverva_message_value(uint16_t *ram, size_t ram_words, uint16_t *reply, size_t reply_words,
                                 const uint16_t *settings, size_t settings_words, uint16_t *remembered,
                                 size_t remembered_words, const uint16_t *value, size_t value_words, uint16_t *answer,
                                 size_t answer_words);

/* One message from the bytes of a long record: the same, with 4 and 5 of the long layout. */
uint16_t solkverva_message_long(uint16_t *ram, size_t ram_words, uint16_t *reply, size_t reply_words,
                                const uint16_t *settings, size_t settings_words, uint16_t *remembered,
                                size_t remembered_words, const uint8_t *bytes, size_t bytes_length, uint16_t *answer,
                                size_t answer_words);

/* The label of one cell: which other cells' windows meet its window. The number: 0, 1, 3 or 8, or 9 for a cell that is
 * unsound or that the whole-area check does not read. */
uint16_t solkverva_label_cell(const uint16_t *ram, size_t ram_words, const uint16_t *settings, size_t settings_words,
                              uint16_t cell, uint16_t *listing, size_t listing_words);

/* The label of the whole area: the unsound cells, and each pair of other cells whose windows meet. The number: 0, 1, 3
 * or 8. */
uint16_t solkverva_label_area(const uint16_t *ram, size_t ram_words, const uint16_t *settings, size_t settings_words,
                              uint16_t *counts, size_t counts_words, uint16_t *unsound, size_t unsound_words,
                              uint16_t *pairs, size_t pairs_words);

/* What a cell is like, read or not and sound or not: its description. There is no cell from 96 on: such a number is
 * described as a broadcast cell that is not read, its subaddress the remainder by 32. The number: 0, 1 or 3. */
uint16_t solkverva_describe_cell(const uint16_t *ram, size_t ram_words, const uint16_t *settings, size_t settings_words,
                                 uint16_t cell, uint16_t *description, size_t description_words);

/* What the stack is like, sound or not: its description. The number: 0, 1 or 3. */
uint16_t solkverva_describe_stack(const uint16_t *ram, size_t ram_words, const uint16_t *settings,
                                  size_t settings_words, uint16_t *description, size_t description_words);

/* Who put each word where it is: goes on over all whole records of this part of a trace. RAM holds the image at first, and
 * what the records leave afterwards; lend each part what the one before left. A refused record is counted and writes
 * nothing. The number: 0; 1 where RAM is neither 4,096 nor 65,536 words, or numbers or marks are not as many; 3. A part
 * that is refused changes nothing, and nothing remembers it: whatever part is lent next goes on as if the refused one had
 * not been lent, so it can be lent again as it should be. */
uint16_t solkverva_who_fill(uint16_t *ram, size_t ram_words, uint64_t *numbers, size_t numbers_length, uint16_t *marks,
                            size_t marks_words, const uint16_t *settings, size_t settings_words, uint16_t *remembered,
                            size_t remembered_words, uint64_t *records, size_t records_length, const uint8_t *trace,
                            size_t trace_length);

/* What the tables say of an address. Where solkverva_who_fill filled them from zeros, that is what solkverva_who answers
 * for the records of all parts that were not refused. The number: 0; 1 where numbers and marks are not both 4,096 or both
 * 65,536 long, for every address; 5 where what they hold of the address is no entry (a number without a mark, a mark
 * without a number, a word that is no mark); 12 for an address beyond the RAM, which no address is on the 64K card. */
uint16_t solkverva_who_entry(const uint64_t *numbers, size_t numbers_length, const uint16_t *marks, size_t marks_words,
                             uint16_t address, uint64_t *last, size_t last_length, uint16_t *part, size_t part_words);

/* Who put the word at one address where it is, after a whole trace; a short tail is no record. RAM holds the image, and
 * what the trace leaves afterwards. The number: 0, 1, 3 or 12. Each call is a question of its own: one that is refused
 * leaves RAM as it was, and the next is answered for itself. */
uint16_t solkverva_who(uint16_t *ram, size_t ram_words, const uint16_t *settings, size_t settings_words,
                       uint16_t address, const uint8_t *trace, size_t trace_length, uint64_t *last, size_t last_length,
                       uint16_t *part, size_t part_words);

/* The record reader: the number, 0, 4 or 5; the value's words, all zero with 4 and 5. */
uint16_t solkverva_read(const uint8_t *bytes, size_t bytes_length, uint16_t *value, size_t value_words);

/* The record writer: the number, 0 or 5; eighty bytes, all zero with 5. */
uint16_t solkverva_write(const uint16_t *value, size_t value_words, uint8_t *bytes, size_t bytes_length);

/* The reader of long records: the number, 0, 4 or 5; the long value's words, all zero with 4 and 5. */
uint16_t solkverva_read_long(const uint8_t *bytes, size_t bytes_length, uint16_t *value, size_t value_words);

/* The writer of long records: the number, 0 or 5; ninety-six bytes, all zero with 5. */
uint16_t solkverva_write_long(const uint16_t *value, size_t value_words, uint8_t *bytes, size_t bytes_length);

/* A record made long: the number, 0, 4 or 5; ninety-six bytes, all zero with 4 and 5. */
uint16_t solkverva_longer(const uint8_t *old, size_t old_length, uint8_t *bytes, size_t bytes_length);

/* A long record made short again: the number, 0, 4, 5, or 10 where that would lose an upper half or a member number;
 * eighty bytes, all zero with a refusal. solkverva_longer undoes it, and the other way round. */
uint16_t solkverva_shorter(const uint8_t *long_bytes, size_t long_length, uint8_t *bytes, size_t bytes_length);

/* A bus controller runs the instruction list at `start`, with GP0 to GP7 in the lowest eight bits of `flags`, for at most
 * `budget` instructions: the number, 0, 1 or 15. Each message that it executes takes the next whole record of trace as
 * its outcome. The machine that it leaves and how it ended are told in machine and ran; RAM is only read. */
uint16_t solkverva_control(const uint16_t *ram, size_t ram_words, uint16_t start, uint16_t flags, uint64_t budget,
                           const uint8_t *trace, size_t trace_length, uint64_t *machine, size_t machine_length,
                           uint64_t *ran, size_t ran_length);

/* A run that goes on from the machine that one left, over the same trace: the number, 0 or 1. A run that its budget ended
 * and then this is one run with both budgets. After a halt it goes on behind the halt. */
uint16_t solkverva_control_on(const uint16_t *ram, size_t ram_words, uint64_t budget, const uint8_t *trace,
                              size_t trace_length, uint64_t *machine, size_t machine_length, uint64_t *ran,
                              size_t ran_length);

#ifdef __cplusplus
}
#endif

#endif
