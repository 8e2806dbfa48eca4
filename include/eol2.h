/* EOL-2 for C: load a program text, start a state, run it under a budget; turn a text into the other edition; write a state as text and read it
   back; give the short part of a text that shows its fault; run a program on the work of a class.

   The library is for x86-64 Linux: `host/library` writes target/staticlib/libinterpreter.a, which needs memcpy, memmove and memset, and
   nothing else. `cc -Iinclude host.c target/staticlib/libinterpreter.a` builds a program over it. host/eol2.c is a short one, and `host/run`
   builds and runs it.

       static uint32_t table[EOL2_TABLE];
       static uint8_t state[EOL2_STATE];
       uint64_t answer = eol2_load(text, text_bytes, table, EOL2_TABLE);
       if (eol2_number(answer) != EOL2_ACCEPTED)
           refused(eol2_number(answer), eol2_line(answer));
       eol2_start(table, EOL2_TABLE, i1, i1_bytes, NULL, 0, state, EOL2_STATE);
       do {
           answer = eol2_run(table, EOL2_TABLE, i1, i1_bytes, NULL, 0, state, EOL2_STATE, 1000);
           q1 = eol2_output(state, 1, &q1_bytes);
       } while (eol2_number(answer) == EOL2_PAUSED);

   What holds of all eight calls:
   - Memory is lent by the caller, each buffer as a pointer and a length. The length of a table counts numbers of 32 bits, and so do those of
     the lengths, budgets and results of eol2_class; every other length counts bytes. A null pointer is allowed with length 0. What is counted
     in numbers is aligned as uint32_t.
   - A buffer that a call writes (the table of eol2_load, the state of eol2_start, eol2_run and eol2_read_state, the out of eol2_convert and
     eol2_write_state, the table and the out of eol2_shorten, the results and the out of eol2_class) overlaps no other buffer of that call, and
     nobody else reads or writes it while the call lasts. The others are only read, may overlap each other, and stay unwritten by anybody
     meanwhile. These are the only duties of a caller: any content and any length is answered, and nothing need be checked beforehand.
   - A table counts as far as its first EOL2_TABLE numbers, a state as far as its first EOL2_STATE bytes. What lies beyond is neither read nor
     written; a buffer may be longer.
   - A call keeps nothing from one to the next and has no variables of its own: all is in the lent memory, so table and state can be copied,
     saved, and used again later; eol2_write_state gives a state as text, for a file. Calls on different buffers may run at the same time.
     docs/LAYOUT.md has what lies where.
   - The answer is a number of 64 bits: document 01's number in the upper 32, the line or the count in the lower 32. eol2_number, eol2_line
     and eol2_count take it apart.
   - A call works on the stack, and takes less than EOL2_STACK bytes of it. */
#ifndef EOL2_H
#define EOL2_H

#include <stddef.h>
#include <stdint.h>

#ifdef __cplusplus
extern "C" {
#endif

/* ---- sizes */

enum {
    EOL2_TABLE = 8192,   /* numbers of 32 bits in a program table */
    EOL2_STATE = 40960,  /* bytes in a state, the outputs included */
    EOL2_TEXT = 32768,   /* bytes that a program text has at most */
    EOL2_INPUT = 65536,  /* bytes that an input has at most */
    EOL2_OUTPUT = 4096,  /* bytes that an output has at most */
    EOL2_SAVED = 47754,  /* bytes that a saved state has at most */
    EOL2_CLASS = 16,     /* inputs that a class has at most */
    EOL2_STACK = 524288  /* bytes of stack that are enough for any call */
};

/* ---- the numbers of answers, each with its question; a question answered no gives its number */

enum eol2_numbers {
    /* Refused by eol2_load, and the numbers of eol2_shorten, in the order in which a statement is asked: 40 first; then 14, 15, 16, 00, 10, 08,
       06, 70, 01, 02, 11 of each statement; then 25, 12, 13 of the whole text. The first no decides. A text with macros (eol2_load says which)
       is asked 14, 15, 16, 64, 65, 66 as a whole before its statements. */
    EOL2_BAD_SIZE = 40,           /* Table long enough, text short enough? Of eol2_shorten also: buffer as long as the text? */
    EOL2_BAD_BYTE = 14,           /* Outside texts and comments, only A to Z, 0 to 9, space , : ; ' + - * ( ) and new line, each comment closed? */
    EOL2_BAD_TEXT = 15,           /* Each text closed on its line, not empty, of allowed characters and pairs? */
    EOL2_BAD_LENGTH = 16,         /* Each item within 60 characters: name, number, text, and what is none of them? */
    EOL2_BAD_HEADING = 0,         /* Is the first statement SEKCJA or SECTION and one name, unlabelled? (Printed 00.) */
    EOL2_BAD_OPERATOR = 10,       /* Is the operator known, of the section's edition, and no second SEKCJA or SECTION? */
    EOL2_BAD_SWITCH_LABELS = 8,   /* Has each switch exactly one label? (Printed 08.) */
    EOL2_BAD_REPEATED_LABEL = 6,  /* Is each label new? (Printed 06.) */
    EOL2_BAD_LABEL_NAME = 70,     /* Is no label or switch spelled as an operator of either edition? (A table made before may have such labels.) */
    EOL2_BAD_COUNT = 1,           /* Not too many arguments? (Printed 01.) */
    EOL2_BAD_ARGUMENT = 2,        /* Each argument listed for its place, index and number in range, none missing? (Printed 02.) */
    EOL2_BAD_ROOM = 11,           /* Tables within limits: instructions, labels, switches, entries, texts, numbers? */
    EOL2_BAD_END = 25,            /* KONS (ENDS) and KONP as asked, nothing after, a last instruction STOP, SKOCZ or WROC, one after each label? */
    EOL2_BAD_LABEL = 12,          /* Every used label declared (a switch's name is none)? */
    EOL2_BAD_SWITCH = 13,         /* Every used switch declared, of the type its instruction needs? */
    EOL2_BAD_MACROS = 64,         /* List of macros and calls well formed, no star or bracket elsewhere, each called macro in the list once? */
    EOL2_BAD_CALL = 65,           /* Has each call as many arguments as its macro has parameters? */
    EOL2_BAD_EXPANSION = 66,      /* Calls within calls at most 16 levels deep, and at most EOL2_TEXT written-out bytes? */

    /* Refused by eol2_start, eol2_run, eol2_write_state and eol2_read_state, in this order */
    EOL2_BAD_TABLE = 62,          /* Table long enough and well formed? Never no for a table that eol2_load left with 80. */
    EOL2_BAD_INPUTS = 61,         /* Inputs short enough, and of the 87 characters? */
    EOL2_BAD_STATE = 63,          /* State long enough, and for run and the writer well formed, and the writer's buffer long enough? Of the state
                                     never no after an accepted call with this table and inputs. */

    /* Refused by eol2_read_state, in this order, after 62, 61 and 63 */
    EOL2_BAD_LINES = 68,          /* Is every line of the saved state hexadecimal with its length and sum right? */
    EOL2_BAD_FRAMES = 69,         /* Are its frames in order, once each, the head there, none empty, and is the state well formed? */

    /* Refused by eol2_convert */
    EOL2_BAD_CONVERSION = 67,     /* Does the text load, has it no macros, and does the result fit the buffer and EOL2_TEXT bytes? */

    /* Refused by eol2_class, after 62 */
    EOL2_BAD_CLASS = 71,          /* At most EOL2_CLASS lengths, as many budgets, the lengths adding up to the bytes given, three results and
                                     EOL2_OUTPUT bytes of the buffer for each? */

    /* Accepted, by all calls but eol2_run; paused, by eol2_run */
    EOL2_ACCEPTED = 80,
    EOL2_PAUSED = 81,             /* the budget is used up */

    /* Stops of eol2_run: the first question of the next instruction that is answered no */
    EOL2_STOP_STATEMENT = 50,     /* Is it other than STOP? The regular end of a program. */
    EOL2_STOP_NOTHING = 52,       /* Has each expression, and for RZ the file, the component asked for? */
    EOL2_STOP_KIND = 53,          /* Is it of the right kind? */
    EOL2_STOP_RANGE = 54,         /* Counts not negative, results within range? */
    EOL2_STOP_DIVISOR = 55,       /* Divisor not zero? */
    EOL2_STOP_INDEX = 56,         /* Switch index within the list? */
    EOL2_STOP_RETURN = 57,        /* WROC with a filled stack? */
    EOL2_STOP_RECORD = 58,        /* Is the record of that address in that file, or the address 0? */
    EOL2_STOP_ROOM = 59,          /* Result within the limits? */
    EOL2_STOP_ADDRESSES = 60      /* At most 8,388,607 addresses given? */
};

/* ---- answers */

/* The number of an answer: one of enum eol2_numbers. */
static inline uint32_t eol2_number(uint64_t answer)
{
    return (uint32_t)(answer >> 32);
}

/* Of an answer of eol2_load: the line, from 1, where the statement, byte, comment, text or item at fault begins; 0 with 80 and with 40. Lines
   are those of the given text; what a call of a macro writes has the line of that call, and of calls within calls the outermost one's. */
static inline uint32_t eol2_line(uint64_t answer)
{
    return (uint32_t)(answer & 0xffffffffu);
}

/* Of an answer of eol2_run: how many instructions this call completed; 0 where it is refused. Of eol2_start, eol2_read_state and eol2_class: 0. Of
   eol2_convert and eol2_write_state: how many bytes they wrote; 0 where they are refused. Of eol2_shorten: how many bytes the part has, with
   every number; 0 with 40. */
static inline uint32_t eol2_count(uint64_t answer)
{
    return (uint32_t)(answer & 0xffffffffu);
}

/* ---- the eight calls */

/* Loads the program of a text.

   text, text_bytes    the text, from SEKCJA or SECTION to KONP. Only read. More than EOL2_TEXT bytes: refused with 40
   table, table_cells  the table to fill; table_cells counts numbers of 32 bits. Fewer than EOL2_TABLE: refused with 40

   Number, line            The table afterwards
   80, 0                   its first EOL2_TABLE numbers are the program of the text, unused ones zero: the same for the same text, whatever
                           stood there before
   40, 0                   as it was
   another refusal, line   its first EOL2_TABLE numbers are zeros

   The refusals are the first eighteen of enum eol2_numbers. Numbers beyond the first EOL2_TABLE stay as they were in every case.

   A text is of one edition. Its first operator chooses: after SEKCJA all operators are the Polish ones, after SECTION the English ones, and a
   word that the other edition alone has is refused with 10. STOP and KONP are words of both. Everything else is the same in both editions, and
   so is the table: it has no trace of the edition. docs/GUIDE.md has the words.

   A text with a star or a round bracket outside texts and comments is one with macros: a list in brackets is its second statement, and calls
   have a star. The given text, of EOL2_TEXT bytes at most, is asked 14, 15 and 16 as a whole, then 64, 65 and 66. Then the list goes, each
   call gives place to the body of its macro with the call's arguments, and the written-out text, of EOL2_TEXT bytes at most, is loaded as if
   it were typed: its statements are asked as those of any text, and the table is the one of the written-out text, but for lines.
   The time is some ten nanoseconds for each byte given and each byte written out, and more for calls that write nothing. Their number has no
   limit. One that is repeated takes no time, but where macros call each other by names that are handed on as arguments, and all these calls
   differ in their arguments, a text of 2 kB can keep load at work for a year (docs/DECISIONS.md, 2.2-36). A host that loads texts of strangers sets a limit of its own, by a process or a thread that it can end. */
uint64_t eol2_load(const uint8_t *text, size_t text_bytes, uint32_t *table, size_t table_cells);

/* Makes the state in which a program starts: H plus, all else empty, the first instruction next, nothing read of the inputs.

   table, table_cells    a table as eol2_load left it. Only read
   i1, i1_bytes          the input I1; likewise I2. Only read. None: a null pointer and 0
   state, state_bytes    the state to make. Its content does not matter

   Number, count     The state afterwards
   80, 0             its first EOL2_STATE bytes are the starting state, whatever stood there before
   62, 61 or 63, 0   as it was: table not well formed; inputs too long or with another character; fewer than EOL2_STATE bytes

   Bytes beyond the first EOL2_STATE stay as they were in every case. */
uint64_t eol2_start(const uint32_t *table, size_t table_cells, const uint8_t *i1, size_t i1_bytes, const uint8_t *i2, size_t i2_bytes,
                    uint8_t *state, size_t state_bytes);

/* Runs a program on from a state, by at most budget instructions.

   table, table_cells    a table as eol2_load left it. Only read
   i1, i1_bytes          the input I1; likewise I2. Only read. The same as at the start, so that what was read stays read. A longer one that
                         begins with it is accepted too, and any one that is no shorter than the place up to which it is read
   state, state_bytes    a state as eol2_start or eol2_run left it
   budget                any number; 0 always pauses, with count 0

   Number, count         The state afterwards
   81, budget            pause: as many instructions are completed as the budget has. The state is the one after them. Call again to go on
   50, 52 to 60, count   stop: count, less than the budget, instructions are completed, and the next one fails that question. The state is
                         the one before it, with it as the next instruction; a further run stops at it again, with count 0
   62, 61 or 63, 0       refused: as it was. Table not well formed; inputs too long or with another character; state too short or not well
                         formed with this table and these inputs

   So a run of 1,000 followed by one of 500 leaves what one of 1,500 leaves. Bytes beyond the first EOL2_STATE stay as they were in every
   case. */
uint64_t eol2_run(const uint32_t *table, size_t table_cells, const uint8_t *i1, size_t i1_bytes, const uint8_t *i2, size_t i2_bytes,
                  uint8_t *state, size_t state_bytes, uint32_t budget);

/* Turns a text into the other edition: each operator, from SEKCJA to KONP, into the word of the same meaning there, and nothing else. Labels,
   arguments, texts, comments, spaces and new lines stay, byte by byte.

   text, text_bytes    a text of either edition. Only read
   out, out_bytes      the buffer to fill. Its content does not matter; EOL2_TEXT bytes are enough for any result

   Number, count       The buffer afterwards
   80, count           its first count bytes are the other edition's text, count at most EOL2_TEXT; the bytes behind them as they were
   67, 0               as it was, all of it

   What it asks, and 67 for each no: would eol2_load accept the text (into a table of EOL2_TABLE numbers)? Has it no star and no round bracket
   outside texts and comments, so no macros? Has the result at most out_bytes bytes, and at most EOL2_TEXT? Why a text does not load, eol2_load
   tells.

   Both texts load to the same table, lines included, so they run alike on all inputs, and a state of the one goes on with the other. Converted
   back, the result is the first text again, byte by byte, where there is room for it. A word of the other edition may be longer or shorter, so
   a text near EOL2_TEXT bytes may be taken one way only. */
uint64_t eol2_convert(const uint8_t *text, size_t text_bytes, uint8_t *out, size_t out_bytes);

/* Writes a state as text: lines of hexadecimal in capitals, one for each part of the state that is not empty, each ended by a new line. A state
   has one such text only. docs/LAYOUT.md has its form.

   table, table_cells    a table as eol2_load left it. Only read
   i1, i1_bytes          the input I1; likewise I2, both as for eol2_run. Only read
   state, state_bytes    a state as eol2_start, eol2_run or eol2_read_state left it. Only read
   out, out_bytes        the buffer to fill. Its content does not matter; EOL2_SAVED bytes are enough for any state

   Number, count         The buffer afterwards
   80, count             its first count bytes are the saved state, count at most EOL2_SAVED; the bytes behind them as they were
   62, 61 or 63, 0       as it was, all of it: table not well formed; inputs too long or with another character; state too short, or not well
                         formed with this table and these inputs, or the buffer shorter than the text

   The text holds the state alone. Who goes on from it needs the same table (of the same program text, in either edition) and the same inputs. */
uint64_t eol2_write_state(const uint32_t *table, size_t table_cells, const uint8_t *i1, size_t i1_bytes, const uint8_t *i2, size_t i2_bytes,
                          const uint8_t *state, size_t state_bytes, uint8_t *out, size_t out_bytes);

/* Makes a state of the text that eol2_write_state gave.

   table, table_cells    a table as eol2_load left it. Only read
   i1, i1_bytes          the input I1; likewise I2, both as for eol2_run. Only read
   saved, saved_bytes    the text, from its first line to the new line that ends its last one. Only read
   state, state_bytes    the state to make. Its content does not matter

   Number, count     The state afterwards
   80, 0             its first EOL2_STATE bytes are the saved state, whatever stood there before
   62, 61 or 63, 0   as it was: table not well formed; inputs too long or with another character; fewer than EOL2_STATE bytes
   68, 0             as it was: a line has a sign that is no capital hexadecimal digit, a length or a sum that is not right, or no new line
                     at its end. So a text in which one byte was changed, left out or put in, or which was cut within a line, is not taken
   69, 0             as it was: all lines are right in themselves, and they are not the text of a state: they stand in another order, one is
                     there twice or of an unknown kind, the first one is missing; or that state is not well formed with this table and these
                     inputs, as eol2_run asks it

   A text is accepted just when it is the one that eol2_write_state gives for the state it makes. (A text without some of its later lines may be
   the one of another state.) With the same table, inputs and budgets the state runs on as the written one does, to the same answers and
   states. With another table or other inputs a text may be accepted too: where the state is well formed with them, it runs as any such state.
   Bytes beyond the first EOL2_STATE stay as they were in every case. */
uint64_t eol2_read_state(const uint32_t *table, size_t table_cells, const uint8_t *i1, size_t i1_bytes, const uint8_t *i2, size_t i2_bytes,
                         const uint8_t *saved, size_t saved_bytes, uint8_t *state, size_t state_bytes);

/* Gives the short part of a refused text that shows the same fault: some of its lines, in their order, that eol2_load refuses with the same
   number. For a report of a fault, and for a customer who sends it.

   text, text_bytes    a text of either edition, with macros or without. Only read
   table, table_cells  a table to load into, as for eol2_load. Its content does not matter
   out, out_bytes      the buffer to fill, no shorter than the text. Its content does not matter

   Number, count            The buffer afterwards                              The table afterwards, its first EOL2_TABLE numbers
   80, text_bytes           its first bytes are the text, which loads          the program of the text
   a refusal's, count       its first count bytes are the part                 zeros, as eol2_load leaves them for the part
   40, 0                    as it was, all of it                               as they were

   What it asks first, and 40 for each no: is the buffer as long as the text (also for a text that loads)? Has the table EOL2_TABLE numbers, the
   text at most EOL2_TEXT bytes? Then the number is the one that eol2_load gives for the text, and for the part. Bytes behind the part stay as
   they were in every case, and so do numbers beyond the first EOL2_TABLE. The part's own line of the fault, eol2_load tells.

   How the part is found: the lines are tried in rounds from the last to the first, each is dropped if without it the number stays, and a round
   in which none is dropped is the last one. So no single line of the part can be left out; another part may still be shorter. A line goes up to
   and with its new line, and a last one without a new line is a line as it stands. The part of a text refused with 00 is often empty, as the
   empty text is 00.

   The time is that of one eol2_load for each line and each round. 300 lines with one fault take some milliseconds, 32,000 lines some seconds.
   A text whose lines need each other can take a round for each of them, and with macros there may be thousands (docs/requests/2.7.md); and a text
   of macros can keep eol2_load itself at work for very long. A host that takes texts of strangers sets a limit of its own, as for eol2_load. */
uint64_t eol2_shorten(const uint8_t *text, size_t text_bytes, uint32_t *table, size_t table_cells, uint8_t *out, size_t out_bytes);

/* Runs one program on the work of a class: up to EOL2_CLASS inputs, each with a budget, as eol2_start and eol2_run would for each by itself. The
   table is checked once for all.

   table, table_cells      a table as eol2_load left it. Only read
   inputs, inputs_bytes    the inputs I1 of all pupils, end to end, the first one's first. Only read. I2 is empty for each
   lengths, lengths_count  how many bytes each of them has; lengths_count is how many pupils there are, also none. Only read
   budgets, budgets_count  a budget for each, any number, as for eol2_run. Only read
   results, results_cells  three numbers for each pupil, to be filled
   out, out_bytes          EOL2_OUTPUT bytes for each pupil, end to end, to be filled

   Number, count   The results and the buffer afterwards
   80, 0           of the pupil k, counted from 0: results[3 * k] is the number, results[3 * k + 1] the count and results[3 * k + 2] the bytes of
                   Q1, and these stand from out[EOL2_OUTPUT * k] on: what eol2_run answers and shows after eol2_start, on a state of its own. Where
                   that pupil's input is refused, number 61, count 0 and no bytes. All other numbers and bytes as they were
   62 or 71, 0     as they were, all of them: table not well formed; else more than EOL2_CLASS lengths, not as many budgets, lengths that do not
                   add up to inputs_bytes, fewer than three results or EOL2_OUTPUT bytes of the buffer for a pupil

   Longer results and buffers are fine. A refused input concerns its pupil alone, and so does one of more than EOL2_INPUT bytes; all inputs
   together may have any length. What a pupil gets depends on the table, its input and its budget, and on nothing else: not on its place, on the
   others, or on what the buffers held. */
uint64_t eol2_class(const uint32_t *table, size_t table_cells, const uint8_t *inputs, size_t inputs_bytes, const uint32_t *lengths,
                    size_t lengths_count, const uint32_t *budgets, size_t budgets_count, uint32_t *results, size_t results_cells, uint8_t *out,
                    size_t out_bytes);

/* ---- reading a table and a state (docs/LAYOUT.md). Both functions take any content of EOL2_TABLE numbers and EOL2_STATE bytes, and read
   nothing beyond. They do not check it: what they say of bytes that no call left has no meaning. eol2_run tells, by 62 and 63. */

/* The characters of the output Q1 (which is 1) or Q2 (which is 2): a pointer into the state's EOL2_STATE bytes, their count in *bytes. They
   may be any of the 87 characters, new lines among them, and have no 0 at their end. Good until the state is written again. NULL and 0 for
   another which, and where the place and the length that the bytes give reach beyond the EOL2_STATE bytes; never so for a state that a call
   left, where an empty output is 0 and not NULL. */
static inline const uint8_t *eol2_output(const uint8_t *state, int which, size_t *bytes)
{
    enum { FIRST_LENGTH = 24, FIRST_BYTE = 222, FIRST_OUTPUT = 97, OUTPUTS = 2 }; /* docs/LAYOUT.md */
    size_t at = FIRST_BYTE, length = 0;
    *bytes = 0;
    if (which < 1 || which > OUTPUTS)
        return NULL;
    for (int k = 0; k < FIRST_OUTPUT + which; k++) {
        at += length;
        length = (size_t)state[FIRST_LENGTH + 2 * k] + 256 * (size_t)state[FIRST_LENGTH + 1 + 2 * k];
    }
    if (at > EOL2_STATE || length > EOL2_STATE - at)
        return NULL;
    *bytes = length;
    return state + at;
}

/* The line of the next instruction, counted from 1 in the text, of a table and a state that a call left with it: after a stop the line of the
   instruction that failed. 0 where the bytes give a place of 512 or more for the next instruction. */
static inline uint32_t eol2_next_line(const uint32_t *table, const uint8_t *state)
{
    uint32_t next = (uint32_t)state[9] + 256 * (uint32_t)state[10] + 65536 * (uint32_t)state[11];
    return next < 512 ? table[8 + 4 * next] / 64 : 0;
}

#ifdef __cplusplus
}
#endif

#endif
