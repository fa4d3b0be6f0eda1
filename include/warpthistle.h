/* Warpthistle: the tokens of YARA rules for editors, with lookahead and backtracking, and the events of a parser.
 * SPDX-License-Identifier: BSD-3-Clause
 *
 * The functions of the static library that `./library` builds. Each is proved to do what docs/01-scope.md says.
 *
 *     static const uint8_t src[] = "rule till { condition: true }";
 *     size_t len = sizeof src - 1;
 *     static uint32_t room[WARPTHISTLE_TOKEN_NUMBERS * (sizeof src - 1)];
 *     size_t room_len = sizeof room / sizeof *room;
 *     warpthistle_window window;
 *     warpthistle_token token;
 *     if (warpthistle_window_open(&window, src, len, room, room_len) != WARPTHISTLE_STATUS_DONE) return 1;
 *     while (warpthistle_window_next_token(&window, src, len, room, room_len, &token) == WARPTHISTLE_STATUS_FOUND)
 *         printf("%u %u %u\n", token.kind, token.start, token.end);
 *
 * They allocate nothing, keep no pointer and share no state, so threads may use one window or event stream each. What they write, they
 * write into what the caller lends. A window and an event stream stand in memory of the caller's between calls, as numbers that only these
 * functions read and write; a copy of them, with a copy of their room, is a second window or stream. There is nothing to close or free.
 *
 * Hand each call the same source and the same room as the call before. A source of another length, a room of another number of slots, and
 * numbers that break what every call leaves are refused by 24; a source with other bytes is not noticed, and its new tokens are read.
 * A call answers a status: done or found (0), none (100), or the number of a refusal. A refused call changes nothing that is lent; where a
 * call finds none, what is lent for the token, event or index stays as it was. Lengths are numbers of elements, not of bytes. A pointer is
 * never null, not even where its length is 0, and no two parameters overlap: neither is tested. */
#ifndef WARPTHISTLE_H
#define WARPTHISTLE_H

#include <stddef.h>
#include <stdint.h>

#ifdef __cplusplus
extern "C" {
#endif

/* The version of this header; `warpthistle_version` answers the library's, as MAJOR * 1000000 + MINOR * 1000 + PATCH. Below 1.0 a minor
 * version may change anything: use a library whose number, divided by 1000, is the header's. */
#define WARPTHISTLE_VERSION_MAJOR 0
#define WARPTHISTLE_VERSION_MINOR 1
#define WARPTHISTLE_VERSION_PATCH 0
#define WARPTHISTLE_VERSION 1000
uint32_t warpthistle_version(void);

/* What a call answers: one of these where it is not refused, else the number of a refusal, which follow. */
enum warpthistle_status {
    WARPTHISTLE_STATUS_DONE = 0,  /* done */
    WARPTHISTLE_STATUS_FOUND = 0, /* the same of a call that looks for something: found, and written to what was lent for it */
    WARPTHISTLE_STATUS_NONE = 100 /* there is none: no token or event is left */
};

/* Why a call is refused. Above each function stands by which numbers it can be; 24 can come from every call of a window or a stream. */
enum warpthistle_refusal {
    WARPTHISTLE_REFUSAL_SOURCE_TOO_LONG = 1,    /* the source has more than 65,535 bytes */
    WARPTHISTLE_REFUSAL_WINDOW_FULL = 2,        /* more tokens would be kept than the room has slots */
    WARPTHISTLE_REFUSAL_TOO_MANY_BOOKMARKS = 3, /* 64 bookmarks of a window are live, or 65,535 of an event stream */
    WARPTHISTLE_REFUSAL_NOT_LIVE = 4,           /* no such bookmark is live */
    WARPTHISTLE_REFUSAL_EVENTS_FULL = 5,        /* no slot is left beyond those that open nodes reserve */
    WARPTHISTLE_REFUSAL_NOTHING_OPEN = 6,       /* no node is open */
    WARPTHISTLE_REFUSAL_NO_SPAN = 7,            /* the span starts behind its end, or ends past 65,535 */
    WARPTHISTLE_REFUSAL_UNBALANCED = 8,         /* the events from the position on are no whole nodes */
    WARPTHISTLE_REFUSAL_NOT_SETTLED = 9,        /* a bookmark lives, or a node is open */
    WARPTHISTLE_REFUSAL_PAST_THE_END = 10,      /* the position is past the last event */
    WARPTHISTLE_REFUSAL_TOO_DEEP = 11,          /* as many nodes are open as there are places */
    WARPTHISTLE_REFUSAL_NO_ROOM = 15,           /* what is lent for the answer is too short */
    WARPTHISTLE_REFUSAL_NOT_AS_OPENED = 24      /* what is handed over is not what the last call left; or a number names nothing */
};

/* The modes in which a source is read. Only a parser knows which is right: behind the `{` of a hex pattern `a0` is a byte, elsewhere a
 * name. Jump mode falls back to pattern mode, and pattern mode to normal mode, at the first byte where no token of theirs begins. */
enum warpthistle_mode { WARPTHISTLE_MODE_NORMAL = 0, WARPTHISTLE_MODE_HEX_PATTERN = 1, WARPTHISTLE_MODE_HEX_JUMP = 2 };

/* The kinds of tokens: keywords, operators and brackets, then those with a text of their own. */
enum warpthistle_kind {
    WARPTHISTLE_KIND_ALL_KW = 1,
    WARPTHISTLE_KIND_AND_KW = 2,
    WARPTHISTLE_KIND_ANY_KW = 3,
    WARPTHISTLE_KIND_ASCII_KW = 4,
    WARPTHISTLE_KIND_AT_KW = 5,
    WARPTHISTLE_KIND_BASE64_KW = 6,
    WARPTHISTLE_KIND_BASE64WIDE_KW = 7,
    WARPTHISTLE_KIND_CONDITION_KW = 8,
    WARPTHISTLE_KIND_CONTAINS_KW = 9,
    WARPTHISTLE_KIND_DEFINED_KW = 10,
    WARPTHISTLE_KIND_ENDSWITH_KW = 11,
    WARPTHISTLE_KIND_ENTRYPOINT_KW = 12,
    WARPTHISTLE_KIND_FALSE_KW = 13,
    WARPTHISTLE_KIND_FILESIZE_KW = 14,
    WARPTHISTLE_KIND_FOR_KW = 15,
    WARPTHISTLE_KIND_FULLWORD_KW = 16,
    WARPTHISTLE_KIND_GLOBAL_KW = 17,
    WARPTHISTLE_KIND_ICONTAINS_KW = 18,
    WARPTHISTLE_KIND_IENDSWITH_KW = 19,
    WARPTHISTLE_KIND_IEQUALS_KW = 20,
    WARPTHISTLE_KIND_IMPORT_KW = 21,
    WARPTHISTLE_KIND_IN_KW = 22,
    WARPTHISTLE_KIND_INCLUDE_KW = 23,
    WARPTHISTLE_KIND_ISTARTSWITH_KW = 24,
    WARPTHISTLE_KIND_MATCHES_KW = 25,
    WARPTHISTLE_KIND_META_KW = 26,
    WARPTHISTLE_KIND_NOCASE_KW = 27,
    WARPTHISTLE_KIND_NONE_KW = 28,
    WARPTHISTLE_KIND_NOT_KW = 29,
    WARPTHISTLE_KIND_OF_KW = 30,
    WARPTHISTLE_KIND_OR_KW = 31,
    WARPTHISTLE_KIND_PRIVATE_KW = 32,
    WARPTHISTLE_KIND_RULE_KW = 33,
    WARPTHISTLE_KIND_STARTSWITH_KW = 34,
    WARPTHISTLE_KIND_STRINGS_KW = 35,
    WARPTHISTLE_KIND_THEM_KW = 36,
    WARPTHISTLE_KIND_TRUE_KW = 37,
    WARPTHISTLE_KIND_WIDE_KW = 38,
    WARPTHISTLE_KIND_WITH_KW = 39,
    WARPTHISTLE_KIND_XOR_KW = 40,
    WARPTHISTLE_KIND_SHIFT_LEFT = 41,
    WARPTHISTLE_KIND_SHIFT_RIGHT = 42,
    WARPTHISTLE_KIND_EQ = 43,
    WARPTHISTLE_KIND_NE = 44,
    WARPTHISTLE_KIND_LE = 45,
    WARPTHISTLE_KIND_GE = 46,
    WARPTHISTLE_KIND_LT = 47,
    WARPTHISTLE_KIND_GT = 48,
    WARPTHISTLE_KIND_AMPERSAND = 49,
    WARPTHISTLE_KIND_ASTERISK = 50,
    WARPTHISTLE_KIND_BACKSLASH = 51,
    WARPTHISTLE_KIND_COLON = 52,
    WARPTHISTLE_KIND_COMMA = 53,
    WARPTHISTLE_KIND_DOT = 54,
    WARPTHISTLE_KIND_EQUAL = 55,
    WARPTHISTLE_KIND_PLUS = 56,
    WARPTHISTLE_KIND_MINUS = 57,
    WARPTHISTLE_KIND_PERCENT = 58,
    WARPTHISTLE_KIND_PIPE = 59,
    WARPTHISTLE_KIND_CARET = 60,
    WARPTHISTLE_KIND_TILDE = 61,
    WARPTHISTLE_KIND_L_BRACE = 62,
    WARPTHISTLE_KIND_R_BRACE = 63,
    WARPTHISTLE_KIND_L_PAREN = 64,
    WARPTHISTLE_KIND_R_PAREN = 65,
    WARPTHISTLE_KIND_L_BRACKET = 66,
    WARPTHISTLE_KIND_R_BRACKET = 67,
    WARPTHISTLE_KIND_PATTERN_IDENT = 68,
    WARPTHISTLE_KIND_PATTERN_COUNT = 69,
    WARPTHISTLE_KIND_PATTERN_OFFSET = 70,
    WARPTHISTLE_KIND_PATTERN_LENGTH = 71,
    WARPTHISTLE_KIND_IDENT = 72,
    WARPTHISTLE_KIND_FLOAT_LIT = 73,
    WARPTHISTLE_KIND_INTEGER_LIT = 74,
    WARPTHISTLE_KIND_STRING_LIT = 75,
    WARPTHISTLE_KIND_REGEXP = 76,
    WARPTHISTLE_KIND_COMMENT = 77,
    WARPTHISTLE_KIND_WHITESPACE = 78,
    WARPTHISTLE_KIND_NEWLINE = 79,
    WARPTHISTLE_KIND_HEX_BYTE = 80,
    WARPTHISTLE_KIND_INVALID_UTF8 = 81,
    WARPTHISTLE_KIND_UNKNOWN = 82
};

/* A token: its kind, and the bytes from `start` up to `end`, which is excluded. Tokens follow one another without a gap, none is empty. */
typedef struct warpthistle_token {
    uint32_t kind, start, end;
} warpthistle_token;

#define WARPTHISTLE_SOURCE_LIMIT 65535u /* the most bytes of a source */
#define WARPTHISTLE_TOKEN_NUMBERS 3u    /* numbers of a slot for a token */
#define WARPTHISTLE_EVENT_NUMBERS 4u    /* numbers of a slot for an event */

/* All tokens of a source from a place on, in a mode: kind, start and end of each go to `out`, and how many they are to `count`. No source
 * has more tokens than bytes.
 * 1: the source is too long; 24: the place is past it, or the number is no mode's; 15: `out` has fewer than three numbers a token. */
uint32_t warpthistle_tokens(const uint8_t *src, size_t src_len, uint32_t place, uint32_t mode, uint32_t *out, size_t out_len, uint32_t *count);

/* As many tokens as `out` has room for, three numbers each, from `*place` on and in `*mode`, which are moved behind the last of them. So a
 * source is listed in pieces, or again from a place where an edit was made. At the end `*place` is the source's length, and `*count` 0.
 * 1: the source is too long; 24: the place is past it, or the number is no mode's. */
uint32_t warpthistle_some_tokens(const uint8_t *src, size_t src_len, uint32_t *place, uint32_t *mode, uint32_t *out, size_t out_len,
                                 uint32_t *count);

/* Document 01's listing of a source as text, at the front of `out`; how many bytes it has goes to `len`.
 * 1: the source is too long; 15: `out` is shorter than the text. 983,038 bytes are room for every listing. */
uint32_t warpthistle_listing(const uint8_t *src, size_t src_len, uint8_t *out, size_t out_len, size_t *len);

/* A window on a source: the next tokens, looked ahead at and gone back to. Its room has three numbers a slot, a slot for each token that it
 * keeps: from the earliest live bookmark, or the current token where that comes first, up to the last one read. With as many slots as the
 * source has bytes, no call is refused by 2. What the room holds before the window is opened does not matter. */
typedef struct warpthistle_window {
    uint32_t numbers[72];
} warpthistle_window;

/* Opens a window at the start of a source, in normal mode. 1: the source is too long. */
uint32_t warpthistle_window_open(warpthistle_window *window, const uint8_t *src, size_t src_len, const uint32_t *room, size_t room_len);

/* The current token goes to `token`, and the window on to the next one. NONE at the end; 2: the window is full. */
uint32_t warpthistle_window_next_token(warpthistle_window *window, const uint8_t *src, size_t src_len, uint32_t *room, size_t room_len,
                                       warpthistle_token *token);

/* The token n after the current one goes to `token`: 0 is the current one. NONE past the end; 2: the window is full. */
uint32_t warpthistle_window_peek_token(warpthistle_window *window, const uint8_t *src, size_t src_len, uint32_t *room, size_t room_len,
                                       size_t n, warpthistle_token *token);

/* FOUND where there is a current token, else NONE; 2: the window is full, as looking at the token would be. */
uint32_t warpthistle_window_has_more(warpthistle_window *window, const uint8_t *src, size_t src_len, uint32_t *room, size_t room_len);

/* Sets a bookmark at the current token, whose index goes to `index`. It is live until it is removed; two at one token are two. 3: 64 are
 * live. */
uint32_t warpthistle_window_bookmark(warpthistle_window *window, const uint8_t *src, size_t src_len, const uint32_t *room, size_t room_len,
                                     uint32_t *index);

/* Goes back, or on, to a live bookmark, which stays. 4: it is not live. */
uint32_t warpthistle_window_restore_bookmark(warpthistle_window *window, const uint8_t *src, size_t src_len, const uint32_t *room,
                                             size_t room_len, uint32_t index);

/* Drops a live bookmark. 4: it is not live. */
uint32_t warpthistle_window_remove_bookmark(warpthistle_window *window, const uint8_t *src, size_t src_len, const uint32_t *room,
                                            size_t room_len, uint32_t index);

/* The index of the current token goes to `index`. Nothing changes. */
uint32_t warpthistle_window_current_token_index(const warpthistle_window *window, const uint8_t *src, size_t src_len, const uint32_t *room,
                                                size_t room_len, uint32_t *index);

/* Switches the mode, behind the last token that was read: tokens that were looked ahead at stay as they are. */
uint32_t warpthistle_window_enter_hex_pattern_mode(warpthistle_window *window, const uint8_t *src, size_t src_len, const uint32_t *room,
                                                   size_t room_len);
uint32_t warpthistle_window_enter_hex_jump_mode(warpthistle_window *window, const uint8_t *src, size_t src_len, const uint32_t *room,
                                                size_t room_len);

/* The events of a parser: nodes that begin and end, tokens and errors. The parser pushes them, can take them back to a bookmark, and pops
 * the first. The room has slots of four numbers: one for each event that stands, and one for each open node, which its end will take;
 * `opens` has a place for each node that can be open at once. Kinds and messages are the parser's own numbers, 0 the kind of a node that
 * failed. */
enum warpthistle_tag { WARPTHISTLE_TAG_BEGIN = 0, WARPTHISTLE_TAG_END = 1, WARPTHISTLE_TAG_TOKEN = 2, WARPTHISTLE_TAG_ERROR = 3 };

/* An event: its tag, its kind (an error's is its message), and the bytes from `start` up to `end`. */
typedef struct warpthistle_event {
    uint32_t tag, kind, start, end;
} warpthistle_event;

typedef struct warpthistle_events {
    uint32_t numbers[16];
} warpthistle_events;

/* Opens an empty stream over the two rooms. */
uint32_t warpthistle_events_open(warpthistle_events *events, const uint32_t *room, size_t room_len, const size_t *opens, size_t opens_len);

/* Pushes a token, or an error with its message. 7: no span; then 5: the stream is full. */
uint32_t warpthistle_events_push_token(warpthistle_events *events, uint32_t *room, size_t room_len, const size_t *opens, size_t opens_len,
                                       uint16_t kind, uint32_t start, uint32_t end);
uint32_t warpthistle_events_push_error(warpthistle_events *events, uint32_t *room, size_t room_len, const size_t *opens, size_t opens_len,
                                       uint16_t message, uint32_t start, uint32_t end);

/* Begins a node, which starts where the last token ends. 11: too deep; then 5: the stream is full. */
uint32_t warpthistle_events_begin(warpthistle_events *events, uint32_t *room, size_t room_len, size_t *opens, size_t opens_len,
                                  uint16_t kind);

/* Ends the node begun last, where the last token ends; with an error its kind becomes 0, and where nothing was pushed since it began, it is
 * taken out. 6: no node is open. */
uint32_t warpthistle_events_end(warpthistle_events *events, uint32_t *room, size_t room_len, const size_t *opens, size_t opens_len);
uint32_t warpthistle_events_end_with_error(warpthistle_events *events, uint32_t *room, size_t room_len, const size_t *opens,
                                           size_t opens_len);

/* Sets a bookmark at the end of the stream, whose position goes to `position`. 3: 65,535 are live. */
uint32_t warpthistle_events_bookmark(warpthistle_events *events, const uint32_t *room, size_t room_len, const size_t *opens,
                                     size_t opens_len, size_t *position);

/* Takes back what was pushed since a position; the bookmark stays. 4: none is live; then 10: past the end; then 8: unbalanced. */
uint32_t warpthistle_events_truncate(warpthistle_events *events, const uint32_t *room, size_t room_len, const size_t *opens,
                                     size_t opens_len, size_t position);

/* Drops a bookmark. 4: none is live; then 10: past the end. */
uint32_t warpthistle_events_remove_bookmark(warpthistle_events *events, const uint32_t *room, size_t room_len, const size_t *opens,
                                            size_t opens_len, size_t position);

/* The first event, which leaves the stream, goes to `event`. NONE where the stream is empty; 9: not settled. */
uint32_t warpthistle_events_pop(warpthistle_events *events, const uint32_t *room, size_t room_len, const size_t *opens, size_t opens_len,
                                warpthistle_event *event);

/* Scripts, for tests: all calls are handed over at once, and answered at once.
 *
 * A script of calls on a window that is opened on the source. A call is two numbers, which one and its argument (0 where it has none); its
 * answer is four, which one and its values, the others 0.
 * 24: a number is no call's, or one is left over; 1: the source is too long; 15: `answers` has fewer than four numbers a call. */
enum warpthistle_window_call {
    WARPTHISTLE_WINDOW_NEXT_TOKEN,
    WARPTHISTLE_WINDOW_PEEK_TOKEN,
    WARPTHISTLE_WINDOW_HAS_MORE,
    WARPTHISTLE_WINDOW_BOOKMARK,
    WARPTHISTLE_WINDOW_RESTORE_BOOKMARK,
    WARPTHISTLE_WINDOW_REMOVE_BOOKMARK,
    WARPTHISTLE_WINDOW_ENTER_HEX_PATTERN_MODE,
    WARPTHISTLE_WINDOW_ENTER_HEX_JUMP_MODE,
    WARPTHISTLE_WINDOW_CURRENT_TOKEN_INDEX
};
uint32_t warpthistle_window_script(const uint8_t *src, size_t src_len, const uint32_t *script, size_t script_len, uint32_t *room,
                                   size_t room_len, uint32_t *answers, size_t answers_len);

/* A script of calls on an event stream that is opened over the two rooms. A call is four numbers, which one and its arguments: a kind or
 * message, of which the low 16 bits count, start, end; or a position. Its answer is five, which one and its values, the others 0.
 * 24: a number is no call's, or some are left over; 15: `answers` has fewer than five numbers a call. */
enum warpthistle_events_call {
    WARPTHISTLE_EVENTS_PUSH_TOKEN,
    WARPTHISTLE_EVENTS_PUSH_ERROR,
    WARPTHISTLE_EVENTS_BEGIN,
    WARPTHISTLE_EVENTS_END,
    WARPTHISTLE_EVENTS_END_WITH_ERROR,
    WARPTHISTLE_EVENTS_BOOKMARK,
    WARPTHISTLE_EVENTS_TRUNCATE,
    WARPTHISTLE_EVENTS_REMOVE_BOOKMARK,
    WARPTHISTLE_EVENTS_POP
};
uint32_t warpthistle_events_script(const uint32_t *script, size_t script_len, uint32_t *room, size_t room_len, size_t *opens,
                                   size_t opens_len, size_t *answers, size_t answers_len);

/* The first number of a script's answer, and what follows it: nothing; a token's kind, start, end, or an event's tag, kind, start, end; 1
 * or 0; an index or a position; nothing; the number of a refusal. */
enum warpthistle_answer {
    WARPTHISTLE_ANSWER_NONE,
    WARPTHISTLE_ANSWER_FOUND,
    WARPTHISTLE_ANSWER_TRUTH,
    WARPTHISTLE_ANSWER_INDEX,
    WARPTHISTLE_ANSWER_DONE,
    WARPTHISTLE_ANSWER_REFUSED
};

#ifdef __cplusplus
}
#endif

#endif
