/* jpq: JSONPath (RFC 9535) over JSON Lines, in this process.
 *
 * A handle holds a collection in memory. It answers the scripts of the program jpq, byte for byte as the program does.
 *
 * What the caller has to uphold, and nothing checks:
 *  1. A handle begins as JPQ_INIT (zeros). Nothing but these calls writes to it.
 *  2. It is never copied: a handle that was moved is used at its new place alone.
 *  3. It serves one call at a time, from whatever thread.
 *  4. It is given to jpq_close at the end; otherwise its memory is not freed.
 *  5. No pointer is null, also where the length beside it is 0.
 *  6. A length is that of the bytes which stand at the pointer, or of the room there.
 *  7. The bytes that a call reads are not written while it runs.
 *  8. What a call writes, a handle, a number and a room, is no part of its other arguments.
 *  9. No call is made from a signal handler.
 * 10. Nor from the forked child of a process that had several threads.
 * 11. malloc, realloc and free are of one allocator, whose blocks are aligned as the C standard wants it.
 * 12. No library other than this one defines a symbol that begins with jpq_.
 */
#ifndef JPQ_H
#define JPQ_H

#include <stdbool.h>
#include <stddef.h>
#include <stdint.h>

#ifdef __cplusplus
extern "C" {
#endif

/* A handle. Its fields are for the library alone; the spare words keep its size what it is. */
typedef struct jpq {
    void *at;
    bool is_open;
    uint64_t spare[2];
} jpq;

#ifdef __cplusplus
#define JPQ_INIT {}
static_assert(sizeof(jpq) == 32 && offsetof(jpq, is_open) == 8, "the layout of a handle");
#else
#define JPQ_INIT {0}
_Static_assert(sizeof(jpq) == 32 && offsetof(jpq, is_open) == 8, "the layout of a handle");
#endif

/* How a collection is cut into texts: one on each line, or as a text sequence (RFC 7464). */
enum { JPQ_LINES = 0, JPQ_SEQUENCE = 1 };

/* What jpq_values takes for a value, beside JPQ_LINES: JSON texts, one after another over any number of lines; or the elements of
 * those that are arrays, and the others. */
enum { JPQ_TEXTS = 1, JPQ_ELEMENTS = 2 };

/* How many names an object may have in a survey before it is folded, as `jpgrep --paths` takes it if it is not told. */
#define JPQ_FOLD 1000

/* The most bytes that a collection may have. */
#define JPQ_MOST UINT32_MAX

/* What jpq_filter shows of the lines that match: nothing; the line; each value with its path, or alone; a row of a table. CANONICAL is
 * the canonical form of a line or a value, and TEXT a string without its quotes and escapes, and any other value as it is spelled. */
enum {
    JPQ_NOTHING = 0,
    JPQ_LINE_ROWS = 1,
    JPQ_PATHS = 2,
    JPQ_CSV = 3,
    JPQ_TSV = 4,
    JPQ_CANONICAL_LINES = 5,
    JPQ_CANONICAL_PATHS = 6,
    JPQ_CANONICAL_VALUES = 7,
    JPQ_VALUES = 8,
    JPQ_TEXT_VALUES = 9
};

/* The faults of a query or a condition, from the first that is looked for. */
enum {
    JPQ_FAULT_SIZE = 1,     /* more than 65,535 bytes, or more than 512 of ( and [ together */
    JPQ_FAULT_SYNTAX = 2,   /* not of the grammar (RFC 9535), or not UTF-8 */
    JPQ_FAULT_INTEGER = 3,  /* an index or a bound that is not exact, beyond 2^53 - 1 */
    JPQ_FAULT_NUMBER = 4,   /* a number whose exponent has more than 15 digits */
    JPQ_FAULT_FUNCTION = 5, /* a function that does not exist */
    JPQ_FAULT_TYPES = 6     /* a function that does not fit, by its arguments or where it stands */
};

/* What a call answers. From 11 on these are the program's exit statuses. */
enum {
    JPQ_DONE = 0,
    JPQ_SHUT = 1,     /* the handle is not open */
    JPQ_NUMBER = 2,   /* no framing, nothing to be shown, or no units have this number */
    JPQ_QUESTION = 3, /* the query or the condition is refused: jpq_fault tells why and where */
    JPQ_LINE = 4,     /* there is no line of this number */
    JPQ_FORMAT = 5,   /* the text begins with the mark of another format, as compressed data do */
    JPQ_NONE = 6,     /* there is no pattern of this number */
    JPQ_READ = 11,    /* a read failed, which no call answers: each reads bytes in memory */
    JPQ_SIZE = 12,    /* the collection has more bytes than it may have */
    JPQ_FRAMING = 13, /* bytes other than white space come before the first separator of a sequence */
    JPQ_SCRIPT = 14,  /* the script has more than 4,294,967,295 bytes */
    JPQ_MEMORY = 16   /* out of memory */
};

/* The words for a status. */
static inline const char *jpq_message(uint32_t status) {
    switch (status) {
    case JPQ_DONE: return "done";
    case JPQ_SHUT: return "the handle is not open";
    case JPQ_NUMBER: return "no such number";
    case JPQ_QUESTION: return "query or condition refused";
    case JPQ_LINE: return "no such line";
    case JPQ_FORMAT: return "text of another format";
    case JPQ_NONE: return "no such pattern";
    case JPQ_READ: return "cannot read";
    case JPQ_SIZE: return "collection too large";
    case JPQ_FRAMING: return "bytes before first separator";
    case JPQ_SCRIPT: return "script too large";
    case JPQ_MEMORY: return "out of memory";
    default: return "no such status";
    }
}

/* Loads a copy of a collection of at most `most` bytes into the handle. What the handle had is freed first. JPQ_NUMBER, JPQ_SIZE,
 * JPQ_FRAMING and JPQ_MEMORY leave it shut; a collection that is too large or not framed is told as that, whatever memory there is. */
uint32_t jpq_open(const uint8_t *collection, size_t collection_length, uint32_t framing, uint32_t most, jpq *handle);

/* Runs the commands of a script over the collection, and keeps what they answer to be read. What was left of the answer before is
 * dropped. Commands of a script may change the collection and its indexes; the next script finds them so.
 *
 * JPQ_SHUT and JPQ_SCRIPT change nothing. After JPQ_MEMORY some first commands were run, what they changed stays, and a beginning of
 * their answers can be read; where only one command lacks memory, it answers "error: memory" and the script goes on. */
uint32_t jpq_ask(jpq *handle, const uint8_t *script, size_t script_length);

/* How many bytes of the answer were not read. */
size_t jpq_left(jpq *handle);

/* Copies the bytes of the answer that come next into the room, as many as both have, and answers how many: 0 at its end. */
size_t jpq_read(jpq *handle, uint8_t *room, size_t room_length);

/* Frees what the handle has. A second call does nothing. */
void jpq_close(jpq *handle);

/* jpq_open, and where that is done jpq_ask: a whole run of the program. JPQ_NUMBER, JPQ_SIZE and JPQ_FRAMING leave the handle shut.
 * After JPQ_SCRIPT it has the collection, and no answer. After JPQ_MEMORY it is shut, or as jpq_ask leaves it then. */
uint32_t jpq_run(const uint8_t *collection, size_t collection_length, uint32_t framing, uint32_t most, const uint8_t *script,
                 size_t script_length, jpq *handle);

/* Searches the lines of a text (JSON Lines) by a condition and by queries, as the program jpgrep does, and keeps the rows to be
 * read by jpq_left and jpq_read, but no copy of the text. What was left of the answer before is dropped; the collection stays as
 * it is.
 *
 * The condition is a logical expression as in a filter of RFC 9535, in which @ and $ are the value of the line; if it is empty,
 * there is no condition. There is one query on each line, and empty lines are skipped; without a query it is $. `shown` is one
 * of the list above. For JPQ_CSV and JPQ_TSV each query is a column, and has to be singular, so that it selects no more than one
 * node; otherwise a line matches only if a query selects a node of it. With `numbered` each row begins with the number of its
 * line, from 1, and a colon, or in a table with a cell. Refused lines match nothing. A byte order mark at the front is dropped.
 *
 * After JPQ_SHUT, JPQ_NUMBER, JPQ_QUESTION, JPQ_FORMAT and JPQ_MEMORY nothing is left to be read. */
uint32_t jpq_filter(jpq *handle, const uint8_t *text, size_t text_length, const uint8_t *condition, size_t condition_length,
                    const uint8_t *queries, size_t queries_length, uint32_t shown, bool numbered);

/* Surveys a text (JSON Lines) as `jpgrep --paths` does, and keeps a row to be read for each path of the values of its lines and each
 * kind of value there: in how many of the lines there is one, how many there are, the path, and the kind, separated by tabs and
 * ended by a line feed. Only lines count for which the condition holds, as in jpq_filter; if it is empty, each that has a value. In a
 * path `[*]` stands for each index. Rows are ordered by path, step by step, elements before members and names by their scalars, and then
 * by kind: null, boolean, number, string, array, object.
 *
 * An object at whose path there are more than `fold` names is folded: its members have the step `[**]` together, and `-` stands in
 * place of how many lines. JPQ_FOLD is what jpgrep takes. What was left of the answer before is dropped; the collection stays as it
 * is.
 *
 * After JPQ_SHUT, JPQ_QUESTION, JPQ_FORMAT and JPQ_MEMORY nothing is left to be read. */
uint32_t jpq_survey(jpq *handle, const uint8_t *text, size_t text_length, const uint8_t *condition, size_t condition_length,
                    uint64_t fold);

/* Keeps the values of a text to be read, one on each line, so that any call can take them that takes JSON Lines. With JPQ_TEXTS they
 * are those that `jpgrep --json '$'` prints, and with JPQ_ELEMENTS those of `jpgrep --elements '$'`: the bytes of the text, without
 * the line feeds and carriage returns between tokens. With JPQ_LINES they are the lines that are neither blank nor refused.
 * `refused` is how many texts, elements or lines are refused: they are left out. What was left of the answer before is dropped; the
 * collection stays as it is.
 *
 * After JPQ_SHUT, JPQ_NUMBER, JPQ_FORMAT and JPQ_MEMORY nothing is left to be read, and refused stays as it was. */
uint32_t jpq_values(jpq *handle, const uint8_t *text, size_t text_length, uint32_t units, uint64_t *refused);

/* Keeps the bytes of a line of the collection to be read, without what separates lines. Lines count from 1. What was left of the
 * answer before is dropped. After JPQ_SHUT, JPQ_LINE and JPQ_MEMORY nothing is left to be read. */
uint32_t jpq_line(jpq *handle, uint64_t number);

/* Keeps a row for each node that a query selects in a line of the collection, in the query's order: the byte of the line at which the
 * text of the node begins, the byte after its end, both from 0, and its normalized path, separated by tabs and ended by a line
 * feed. A blank or a refused line has no rows. Lines count from 1. What was left of the answer before is dropped.
 *
 * After JPQ_SHUT, JPQ_QUESTION, JPQ_LINE and JPQ_MEMORY nothing is left to be read. */
uint32_t jpq_marks(jpq *handle, uint64_t number, const uint8_t *query, size_t query_length);

/* Answers 0 if and only if a text is valid as a query, or as a condition if is_condition, and otherwise its first fault, one of
 * JPQ_FAULT_SIZE to JPQ_FAULT_TYPES; or JPQ_MEMORY.
 *
 * At a fault `place` is where it is, in bytes from 0; and the first `words` bytes of the room say in English what the grammar has
 * there, as far as they have room, for a fault of the syntax: 80 bytes are enough. The other faults have no such words. At 0 and
 * JPQ_MEMORY place, words and room stay as they were. */
uint32_t jpq_fault(const uint8_t *text, size_t text_length, bool is_condition, uint64_t *place, uint64_t *words, uint8_t *room,
                   size_t room_length);

/* Tells a pattern that matches nothing: of the patterns that are written in a query, or in a condition if is_condition, as the second
 * argument of match or search, the one with this number among those that are not valid (I-Regexp, RFC 9485). They count from 0, in
 * the order in which they stand in the text; ask for 0, 1 and so on until JPQ_NONE.
 *
 * `length` is how many bytes of UTF-8 the pattern has, and the first of them are put into the room, as many as it has room for. At
 * JPQ_QUESTION, where the text is refused, JPQ_NONE and JPQ_MEMORY length and room stay as they were. */
uint32_t jpq_pattern(const uint8_t *text, size_t text_length, bool is_condition, uint64_t number, uint64_t *length, uint8_t *room,
                     size_t room_length);

#ifdef __cplusplus
}
#endif

#endif
