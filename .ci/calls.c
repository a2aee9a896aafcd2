/* calls COLLECTION QUESTIONS: opens a collection, and answers each line of a file, whose parts have tabs between them:
 *     line NUMBER
 *     marks NUMBER QUERY
 *     filter SHOWN NUMBERED CONDITION QUERY..      over the bytes of the collection
 *     survey FOLD CONDITION                        over the bytes of the collection
 *     values UNITS                                 over the bytes of the collection
 *     fault IS_CONDITION TEXT
 *     pattern IS_CONDITION TEXT NUMBER ROOM        ROOM is how many bytes it has
 * For each it writes a line with the status and the length of what is left, for values with how many are refused, for a fault with
 * its place and for a pattern with its length too, and then what is left. It ends with another status than 0 where a call that leaves something to be read leaves it
 * wrongly, or answers after the handle was closed. Nothing here calls malloc, so that each growth is the library's. */
#include <fcntl.h>
#include <inttypes.h>
#include <jpq.h>
#include <stdio.h>
#include <stdlib.h>
#include <string.h>
#include <unistd.h>

enum { MOST = 1 << 22, ROOM = 1 << 16, PARTS = 64 };
static uint8_t collection[MOST], questions[MOST], queries[ROOM];
static size_t collection_length;

static size_t load(const char *name, uint8_t *room) {
    int file = open(name, O_RDONLY);
    size_t length = 0;
    ssize_t got;
    while (file >= 0 && (got = read(file, room + length, MOST - length)) > 0) length += (size_t)got;
    close(file);
    return length;
}

static void put(const uint8_t *bytes, size_t length) {
    if (write(1, bytes, length) != (ssize_t)length) _exit(91);
}

/* Writes the status with a number beside it, where there is one, and what is left to be read. */
static void tell_with(jpq *handle, uint32_t status, const uint64_t *number) {
    static uint8_t room[ROOM];
    size_t left = jpq_left(handle), got;
    int length = snprintf((char *)room, sizeof room, "%" PRIu32 " %zu", status, left);
    if (number) length += snprintf((char *)room + length, sizeof room - (size_t)length, " %" PRIu64, *number);
    room[length++] = '\n';
    if (status != JPQ_DONE && left != 0) _exit(90);
    put(room, (size_t)length);
    for (size_t size = 1; (got = jpq_read(handle, room, size)) > 0; size = size * 3 % sizeof room + 1) {
        left -= got;
        put(room, got);
    }
    if (left != 0 || jpq_left(handle) != 0) _exit(92);
}

static void tell(jpq *handle, uint32_t status) {
    tell_with(handle, status, NULL);
}

static void tell_values(jpq *handle, uint32_t units) {
    uint64_t refused = 77;
    uint32_t status = jpq_values(handle, collection, collection_length, units, &refused);
    tell_with(handle, status, &refused);
}

static void tell_fault(const uint8_t *text, size_t length, bool is_condition) {
    uint8_t room[81], said[256];
    uint64_t place = 77, words = 78;
    memset(room, 0x5A, sizeof room);
    uint32_t status = jpq_fault(text, length, is_condition, &place, &words, room, sizeof room - 1);
    bool is_fault = status != JPQ_DONE && status != JPQ_MEMORY;
    if (!is_fault && (place != 77 || words != 78)) _exit(93);
    if (is_fault && (place > length || words >= sizeof room)) _exit(94);
    size_t used = is_fault ? (size_t)words : 0;
    for (size_t i = used; i < sizeof room; i++)
        if (room[i] != 0x5A) _exit(95);
    int count = snprintf((char *)said, sizeof said, "%" PRIu32 " %zu %" PRIu64 "\n", status, used, place);
    put(said, (size_t)count);
    put(room, used);
}

static void tell_pattern(const uint8_t *text, size_t length, bool is_condition, uint64_t number, size_t most) {
    uint8_t room[81], said[256];
    uint64_t pattern = 77;
    memset(room, 0x5A, sizeof room);
    if (most >= sizeof room) _exit(96);
    uint32_t status = jpq_pattern(text, length, is_condition, number, &pattern, room, most);
    if (status != JPQ_DONE && pattern != 77) _exit(93);
    size_t used = status != JPQ_DONE ? 0 : pattern < most ? (size_t)pattern : most;
    for (size_t i = used; i < sizeof room; i++)
        if (room[i] != 0x5A) _exit(95);
    int count = snprintf((char *)said, sizeof said, "%" PRIu32 " %zu %" PRIu64 "\n", status, used, pattern);
    put(said, (size_t)count);
    put(room, used);
}

/* The parts of a question, ended by zeros instead of the tabs. */
static size_t split(uint8_t *line, size_t length, uint8_t **parts, size_t *lengths) {
    size_t count = 1;
    parts[0] = line;
    for (size_t i = 0; i <= length; i++) {
        if (i < length && line[i] != '\t') continue;
        lengths[count - 1] = (size_t)(line + i - parts[count - 1]);
        line[i] = 0;
        if (i < length && count < PARTS) parts[count++] = line + i + 1;
    }
    return count;
}

static void answer(jpq *handle, uint8_t *line, size_t length) {
    uint8_t *parts[PARTS];
    size_t lengths[PARTS], count = split(line, length, parts, lengths), used = 0;
    const char *word = (const char *)parts[0];
    uint64_t number = count > 1 ? strtoull((const char *)parts[1], NULL, 10) : 0;
    if (!strcmp(word, "line") && count == 2) {
        tell(handle, jpq_line(handle, number));
    } else if (!strcmp(word, "marks") && count == 3) {
        tell(handle, jpq_marks(handle, number, parts[2], lengths[2]));
    } else if (!strcmp(word, "fault") && count == 3) {
        tell_fault(parts[2], lengths[2], number != 0);
    } else if (!strcmp(word, "pattern") && count == 5) {
        size_t most = strtoul((const char *)parts[4], NULL, 10);
        tell_pattern(parts[2], lengths[2], number != 0, strtoull((const char *)parts[3], NULL, 10), most);
    } else if (!strcmp(word, "survey") && count == 3) {
        tell(handle, jpq_survey(handle, collection, collection_length, parts[2], lengths[2], number));
    } else if (!strcmp(word, "values") && count == 2) {
        tell_values(handle, (uint32_t)number);
    } else if (!strcmp(word, "filter") && count >= 4) {
        for (size_t i = 4; i < count; i++) {
            memcpy(queries + used, parts[i], lengths[i]);
            used += lengths[i];
            queries[used++] = '\n';
        }
        bool numbered = parts[2][0] == '1';
        tell(handle, jpq_filter(handle, collection, collection_length, parts[3], lengths[3], queries, used, (uint32_t)number, numbered));
    } else {
        _exit(96);
    }
}

int main(int count, char **words) {
    if (count != 3) return 97;
    collection_length = load(words[1], collection);
    size_t length = load(words[2], questions);
    jpq handle = JPQ_INIT;
    uint32_t status = jpq_open(collection, collection_length, JPQ_LINES, JPQ_MOST, &handle);
    for (size_t at = 0; at < length && status == JPQ_DONE;) {
        uint8_t *feed = memchr(questions + at, '\n', length - at);
        size_t end = feed ? (size_t)(feed - questions) : length;
        answer(&handle, questions + at, end - at);
        at = end + 1;
    }
    jpq_close(&handle);
    if (status == JPQ_DONE && (jpq_line(&handle, 1) != JPQ_SHUT || jpq_marks(&handle, 1, (const uint8_t *)"$", 1) != JPQ_SHUT)) return 98;
    if (jpq_filter(&handle, collection, collection_length, questions, 0, questions, 0, JPQ_VALUES, false) != JPQ_SHUT) return 98;
    uint64_t refused = 77;
    if (jpq_survey(&handle, collection, collection_length, questions, 0, JPQ_FOLD) != JPQ_SHUT) return 98;
    if (jpq_values(&handle, collection, collection_length, JPQ_TEXTS, &refused) != JPQ_SHUT || refused != 77) return 98;
    return (int)status;
}
