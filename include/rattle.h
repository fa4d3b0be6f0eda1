/* The C functions of the Rattle YARA scanner (crate c_functions), in the static library that `./library` builds.
 *
 * Each answers 0, or the number of the refusal (document 01's, docs/01-scope.md; 15 is room that is too small). A refused call changes
 * nothing that is lent. They keep no state and allocate nothing: what they write, they write into what the caller lends, which no two
 * parameters share. A pointer is never null, not even where its length is 0. */
#ifndef RATTLE_H
#define RATTLE_H

#include <stddef.h>
#include <stdint.h>

#ifdef __cplusplus
extern "C" {
#endif

/* Modes of the scanner. */
enum { RATTLE_NORMAL = 0, RATTLE_PATTERN = 1, RATTLE_JUMP = 2 };

/* The tokens of a source from a place on, in a mode: kind, start and end of each go to `out`, and how many they are to `count`.
 * 1: the source has more than 65,535 bytes; 24: the place is past it, or the number is no mode's; 15: `out` has fewer than three
 * numbers a token. */
uint32_t rattle_tokens(const uint8_t *src, size_t src_len, uint32_t place, uint32_t mode, uint32_t *out, size_t out_len, uint32_t *count);

/* Document 01's listing of a source as text, at the front of `out`; how many bytes it has goes to `len`.
 * 1: the source has more than 65,535 bytes; 15: `out` is shorter than the text. 983,038 bytes are room for every listing. */
uint32_t rattle_listing(const uint8_t *src, size_t src_len, uint8_t *out, size_t out_len, size_t *len);

/* A script of calls on a window that is opened on the source. A call is two numbers, which one and its argument; its answer is four, which
 * one and its values, the others 0. A number that is no call's asks for the index; a last odd number is no call. The room has three
 * numbers a slot.
 * 1: the source has more than 65,535 bytes; 15: `answers` has no room for an answer to each call. */
enum {
    RATTLE_NEXT, RATTLE_PEEK, RATTLE_HAS_MORE, RATTLE_BOOKMARK, RATTLE_RESTORE, RATTLE_REMOVE, RATTLE_ENTER_PATTERN, RATTLE_ENTER_JUMP,
    RATTLE_INDEX
};
uint32_t rattle_window(const uint8_t *src, size_t src_len, const uint32_t *script, size_t script_len, uint32_t *room, size_t room_len,
                       uint32_t *answers, size_t answers_len);

/* A script of calls on an event stream that is opened over the two rooms. A call is four numbers, which one and its arguments (kind or
 * message, of which the low 16 bits count, start, end; or a position); its answer is five, which one and its values, the others 0. A
 * number that is no call's pops; up to three numbers that are left over are no call. The room has four numbers a slot, `opens` one a
 * place.
 * 15: `answers` has no room for an answer to each call. */
enum {
    RATTLE_TOKEN, RATTLE_ERROR, RATTLE_BEGIN, RATTLE_END, RATTLE_END_WITH_ERROR, RATTLE_MARK, RATTLE_TRUNCATE, RATTLE_UNMARK, RATTLE_POP
};
uint32_t rattle_events(const uint32_t *script, size_t script_len, uint32_t *room, size_t room_len, size_t *opens, size_t opens_len,
                       size_t *answers, size_t answers_len);

/* The first number of an answer, and what follows it: nothing; a token's kind, start, end, or an event's tag, kind, start, end; 1 or 0; an
 * index or a position; nothing; the number of a refusal. */
enum { RATTLE_ANSWER_NONE, RATTLE_ANSWER_FOUND, RATTLE_ANSWER_TRUTH, RATTLE_ANSWER_INDEX, RATTLE_ANSWER_DONE, RATTLE_ANSWER_REFUSED };

#ifdef __cplusplus
}
#endif

#endif
