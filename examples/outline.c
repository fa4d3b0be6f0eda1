/* Prints the outline of a YARA rule file, as an editor shows it beside the text: imports, rules and errors, and where they stand.
 * SPDX-License-Identifier: BSD-3-Clause
 *
 *     outline [--events | --switches] [FILE]
 *
 * Without a file it reads standard input. `--events` prints the events that the parser hands on instead, `--switches` where it enters the
 * hex modes. Exit status: 0 no error was found; 1 one was, or the file could not be read, or has more than 65,535 bytes; 2 wrong words.
 *
 * It is a small parser that decides each call by the last answer. It looks ahead past blanks and comments, tries a definition and goes back
 * where it fails, enters the hex modes where the parser of yara-x does, and goes on behind an error at the next token that it knows. It
 * does not take conditions apart. Every file is read to its end, whatever its bytes are.
 *
 * Read it from below: `main` lends the memory, `read_source` is the loop over the items of a file, `rule_decl` reads a rule. */
#include "warpthistle.h"
#include <stdbool.h>
#include <stdio.h>
#include <stdlib.h>
#include <string.h>

#define K(name) WARPTHISTLE_KIND_##name

/* The nodes of the tree that the events make. Their kinds are ours to choose, but for 0, which a node that ends with an error gets. Tokens
 * keep the kinds that they have, 1 to 82. */
#define NODES(X) \
    X(IMPORT_STMT) X(INCLUDE_STMT) X(RULE_DECL) X(RULE_MODS) X(RULE_TAGS) X(META_BLK) X(META_DEF) X(PATTERNS_BLK) X(PATTERN_DEF) \
    X(HEX_PATTERN) X(HEX_ALTERNATIVE) X(HEX_JUMP) X(CONDITION_BLK)
#define NODE(name) name,
#define NODE_NAME(name) #name,
enum node { ERROR, BEFORE_NODES = 99, NODES(NODE) };
static const char *const node_names[] = {NODES(NODE_NAME)};

/* What can be missed. */
#define MESSAGES(X) \
    X(WANT_ITEM, "an import, an include or a rule") \
    X(WANT_STRING, "a string") \
    X(WANT_RULE, "`rule`") \
    X(WANT_NAME, "a name") \
    X(WANT_L_BRACE, "`{`") \
    X(WANT_R_BRACE, "`}`") \
    X(WANT_COLON, "`:`") \
    X(WANT_EQUAL, "`=`") \
    X(WANT_VALUE, "a number, a string, `true` or `false`") \
    X(WANT_SECTION, "`strings` or `condition`") \
    X(WANT_PATTERN_NAME, "a name that begins with `$`") \
    X(WANT_PATTERN, "a string, a regular expression or a hex pattern") \
    X(WANT_CONDITION, "`condition`") \
    X(WANT_EXPRESSION, "an expression") \
    X(WANT_R_PAREN, "`)`") \
    X(WANT_INTEGER, "an integer") \
    X(WANT_HEX, "a hex byte or an alternative in parentheses") \
    X(WANT_R_BRACKET, "`]`") \
    X(WANT_LESS_DEPTH, "alternatives that are nested less deeply")
#define MESSAGE(name, text) name,
#define MESSAGE_TEXT(name, text) text,
enum message { MESSAGES(MESSAGE) };
static const char *const messages[] = {MESSAGES(MESSAGE_TEXT)};

/* Where the parser goes on behind an error: at one of these tokens. yara-x's parser does the same, but that it passes imports over where
 * what stands between items is no item. Each list ends with 0. */
static const uint8_t item_starts[] = {K(GLOBAL_KW), K(PRIVATE_KW), K(RULE_KW), K(IMPORT_KW), K(INCLUDE_KW), 0};
static const uint8_t after_tags[] = {K(L_BRACE), 0};
static const uint8_t after_meta[] = {K(STRINGS_KW), K(CONDITION_KW), 0};
static const uint8_t after_strings[] = {K(CONDITION_KW), 0};
static const uint8_t after_condition[] = {K(R_BRACE), 0};

/* How deep alternatives of hex patterns may nest. A window has at most 64 live bookmarks, and each level holds two. */
#define DEPTH_LIMIT 16
/* Places for the nodes that can be open at once: rule, patterns, definition, hex pattern, its alternatives, a jump. */
#define OPENS (DEPTH_LIMIT + 5)
/* Slots for events. A token makes four at most: its own, Begin and End of the node that it is the first of, and an error. */
#define SLOTS(len) (4 * (len) + 64)
/* More errors than an item can have: each of a rule's four parts has one at most, and so has the rule. */
#define ERROR_LIMIT 8

struct error {
    enum message message;
    uint32_t start, end;
};

struct parser {
    const uint8_t *src;
    size_t len;
    warpthistle_window window;
    uint32_t *room;
    size_t room_len;
    warpthistle_events events;
    uint32_t *slots;
    size_t slots_len;
    size_t opens[OPENS];
    uint32_t refused;  /* why a call was refused that should not be, or 0; then all is as at the end of the source */
    uint32_t depth;    /* of alternatives */
    bool missed;       /* something was missed since the last error: */
    struct error miss; /* what, and the bytes that stand there; of several the one furthest on */
    struct error errors[ERROR_LIMIT];
    uint32_t error_count; /* of the item that is read: they are handed on behind it */
    uint32_t told;        /* where the last error starts, plus one */
    bool show_switches;
    uint32_t fetched, place; /* how many tokens were fetched, and where the last of them ends: there a switch acts */
};

/* What each call on the window, and each on the events, is lent. */
#define WINDOW(p) &(p)->window, (p)->src, (p)->len, (p)->room, (p)->room_len
#define EVENTS(p) &(p)->events, (p)->slots, (p)->slots_len, (p)->opens, OPENS

/* Whether a call was done, or found something: not where there is none, and not where it was refused, which is kept. */
static bool done(struct parser *p, uint32_t status) {
    if (status != WARPTHISTLE_STATUS_DONE && status != WARPTHISTLE_STATUS_NONE && p->refused == 0) {
        p->refused = status;
    }
    return status == WARPTHISTLE_STATUS_DONE;
}

/* --- Tokens: looking ahead, and taking --- */

/* The token n after the current one. */
static bool peek(struct parser *p, size_t n, warpthistle_token *token) {
    if (p->refused != 0 || !done(p, warpthistle_window_peek_token(WINDOW(p), n, token))) {
        return false;
    }
    if (token->end > p->place) {
        p->place = token->end;
        p->fetched++;
    }
    return true;
}

static bool is_trivia(uint32_t kind) { return kind == K(WHITESPACE) || kind == K(NEWLINE) || kind == K(COMMENT); }

/* Looks ahead past blanks, newlines and comments: the token there and its kind, which is 0 at the end of the source. Nothing is taken. */
static uint32_t look(struct parser *p, warpthistle_token *token) {
    for (size_t n = 0; peek(p, n, token); n++) {
        if (!is_trivia(token->kind)) {
            return token->kind;
        }
    }
    token->kind = 0;
    token->start = token->end = (uint32_t)p->len;
    return 0;
}

static uint32_t kind_ahead(struct parser *p) {
    warpthistle_token token;
    return look(p, &token);
}

/* Takes the current token, and pushes it as an event. */
static void take(struct parser *p) {
    warpthistle_token t;
    if (done(p, warpthistle_window_next_token(WINDOW(p), &t))) {
        done(p, warpthistle_events_push_token(EVENTS(p), (uint16_t)t.kind, t.start, t.end));
    }
}

static void take_trivia(struct parser *p) {
    warpthistle_token token;
    while (peek(p, 0, &token) && is_trivia(token.kind)) {
        take(p);
    }
}

/* Takes the token ahead, with the trivia before it. */
static void take_ahead(struct parser *p) {
    take_trivia(p);
    take(p);
}

/* Takes the token ahead if it is of this kind. */
static bool accept(struct parser *p, uint32_t kind) {
    if (kind_ahead(p) != kind) {
        return false;
    }
    take_ahead(p);
    return true;
}

/* Notes what is missed where the token ahead stands, unless something was missed further on. */
static bool miss(struct parser *p, enum message message) {
    warpthistle_token token;
    look(p, &token);
    if (!p->missed || token.start >= p->miss.start) {
        p->missed = true;
        p->miss.message = message;
        p->miss.start = token.start;
        p->miss.end = token.end;
    }
    return false;
}

static bool expect(struct parser *p, uint32_t kind, enum message message) { return accept(p, kind) || miss(p, message); }

/* --- Events, and going back --- */

/* Begins a node, behind the trivia. */
static void begin(struct parser *p, enum node kind) {
    take_trivia(p);
    done(p, warpthistle_events_begin(EVENTS(p), (uint16_t)kind));
}

/* Ends the node begun last, and answers whether it is whole. One that is not becomes an ERROR, or goes away where it is empty. */
static bool end(struct parser *p, bool whole) {
    done(p, whole ? warpthistle_events_end(EVENTS(p)) : warpthistle_events_end_with_error(EVENTS(p)));
    return whole;
}

/* Tries something. Where it fails, the tokens that it took will come again, and the events that it pushed are taken back. */
static bool attempt(struct parser *p, bool (*something)(struct parser *)) {
    uint32_t token = 0;
    size_t event = 0;
    done(p, warpthistle_window_bookmark(WINDOW(p), &token));
    done(p, warpthistle_events_bookmark(EVENTS(p), &event));
    bool ok = something(p);
    if (!ok) {
        done(p, warpthistle_window_restore_bookmark(WINDOW(p), token));
        done(p, warpthistle_events_truncate(EVENTS(p), event));
    }
    done(p, warpthistle_window_remove_bookmark(WINDOW(p), token));
    done(p, warpthistle_events_remove_bookmark(EVENTS(p), event));
    return ok;
}

/* As many of something as there are. Each takes a token or fails, so this ends. */
static bool zero_or_more(struct parser *p, bool (*something)(struct parser *)) {
    while (attempt(p, something)) {
    }
    return true;
}

static bool one_or_more(struct parser *p, bool (*something)(struct parser *)) { return something(p) && zero_or_more(p, something); }

/* Makes an error of what was missed; of two at the same place the first stays. */
static void tell(struct parser *p) {
    if (p->missed && p->told != p->miss.start + 1 && p->error_count < ERROR_LIMIT) {
        p->errors[p->error_count++] = p->miss;
        p->told = p->miss.start + 1;
    }
    p->missed = false;
}

static bool is_one_of(const uint8_t *kinds, uint32_t kind) {
    while (*kinds != 0 && *kinds != kind) {
        kinds++;
    }
    return *kinds != 0;
}

/* Goes on behind a part of the file. If it is not whole, or none of the wanted tokens follows, there is an error; what stands before the
 * next wanted one becomes an ERROR node. */
static void recover(struct parser *p, bool whole, const uint8_t *wanted, enum message message) {
    warpthistle_token token;
    uint32_t kind = look(p, &token);
    bool found = kind == 0 || is_one_of(wanted, kind);
    if (!found && (!p->missed || p->miss.start < token.start)) {
        miss(p, message);
    }
    if (!found || !whole) {
        tell(p);
    }
    if (!found) {
        begin(p, ERROR);
        do {
            take_ahead(p);
            kind = kind_ahead(p);
        } while (kind != 0 && !is_one_of(wanted, kind));
        end(p, true);
    }
}

/* --- Hex patterns --- */

/* A switch acts behind the last token that was fetched. So it is made when the bracket was taken, and nothing behind it was looked at. */
static void enter_mode(struct parser *p, enum warpthistle_mode mode) {
    bool jump = mode == WARPTHISTLE_MODE_HEX_JUMP;
    if (p->show_switches) {
        printf("%s %u %u\n", jump ? "jump" : "pattern", (unsigned)p->fetched, (unsigned)p->place);
    }
    done(p, jump ? warpthistle_window_enter_hex_jump_mode(WINDOW(p)) : warpthistle_window_enter_hex_pattern_mode(WINDOW(p)));
}

/* 2-4, 2-, -4 or - */
static bool hex_range(struct parser *p) {
    accept(p, K(INTEGER_LIT));
    if (!expect(p, K(MINUS), WANT_INTEGER)) {
        return false;
    }
    accept(p, K(INTEGER_LIT));
    return true;
}

/* [2-4] or [2]. In jump mode 10 is an integer, in pattern mode it is a byte. */
static bool hex_jump(struct parser *p) {
    begin(p, HEX_JUMP);
    bool ok = expect(p, K(L_BRACKET), WANT_HEX);
    if (ok) {
        enter_mode(p, WARPTHISTLE_MODE_HEX_JUMP);
        ok = (attempt(p, hex_range) || expect(p, K(INTEGER_LIT), WANT_INTEGER)) && expect(p, K(R_BRACKET), WANT_R_BRACKET);
    }
    return end(p, ok);
}

static bool hex_sub_pattern(struct parser *p);

static bool hex_other(struct parser *p) { return expect(p, K(PIPE), WANT_R_PAREN) && hex_sub_pattern(p); }

/* (4D 5A | 5A) */
static bool hex_alternative(struct parser *p) {
    if (p->depth == DEPTH_LIMIT) {
        return miss(p, WANT_LESS_DEPTH);
    }
    p->depth++;
    begin(p, HEX_ALTERNATIVE);
    bool ok = expect(p, K(L_PAREN), WANT_HEX) && hex_sub_pattern(p) && zero_or_more(p, hex_other) && expect(p, K(R_PAREN), WANT_R_PAREN);
    p->depth--;
    return end(p, ok);
}

static bool hex_element(struct parser *p) { return accept(p, K(HEX_BYTE)) || hex_alternative(p); }

/* Jumps and the element behind them. Where none is there, the jumps are not taken: they stand between elements only. */
static bool hex_more(struct parser *p) { return zero_or_more(p, hex_jump) && hex_element(p); }

static bool hex_sub_pattern(struct parser *p) { return hex_element(p) && zero_or_more(p, hex_more); }

/* { 4D 5A [2-4] ?? } */
static bool hex_pattern(struct parser *p) {
    begin(p, HEX_PATTERN);
    bool ok = expect(p, K(L_BRACE), WANT_PATTERN);
    if (ok) {
        enter_mode(p, WARPTHISTLE_MODE_HEX_PATTERN);
        ok = hex_sub_pattern(p) && expect(p, K(R_BRACE), WANT_R_BRACE);
    }
    return end(p, ok);
}

/* --- Rules --- */

/* ascii, base64("..") or xor(1-2), say */
static bool pattern_mod(struct parser *p) {
    switch (kind_ahead(p)) {
        case K(ASCII_KW):
        case K(WIDE_KW):
        case K(NOCASE_KW):
        case K(PRIVATE_KW):
        case K(FULLWORD_KW):
            take_ahead(p);
            return true;
        case K(BASE64_KW):
        case K(BASE64WIDE_KW):
            take_ahead(p);
            return !accept(p, K(L_PAREN)) || (expect(p, K(STRING_LIT), WANT_STRING) && expect(p, K(R_PAREN), WANT_R_PAREN));
        case K(XOR_KW):
            take_ahead(p);
            return !accept(p, K(L_PAREN)) ||
                   (expect(p, K(INTEGER_LIT), WANT_INTEGER) && (!accept(p, K(MINUS)) || expect(p, K(INTEGER_LIT), WANT_INTEGER)) &&
                    expect(p, K(R_PAREN), WANT_R_PAREN));
        default:
            return false;
    }
}

/* $a = "..", $a = /../ or $a = { .. }, and modifiers */
static bool pattern_def(struct parser *p) {
    begin(p, PATTERN_DEF);
    bool ok = expect(p, K(PATTERN_IDENT), WANT_PATTERN_NAME) && expect(p, K(EQUAL), WANT_EQUAL) &&
              (accept(p, K(STRING_LIT)) || accept(p, K(REGEXP)) || hex_pattern(p)) && zero_or_more(p, pattern_mod);
    return end(p, ok);
}

static void patterns_blk(struct parser *p) {
    begin(p, PATTERNS_BLK);
    bool ok = expect(p, K(STRINGS_KW), WANT_SECTION) && expect(p, K(COLON), WANT_COLON) && one_or_more(p, pattern_def);
    recover(p, end(p, ok), after_strings, WANT_CONDITION);
}

/* name = value */
static bool meta_def(struct parser *p) {
    begin(p, META_DEF);
    bool ok = expect(p, K(IDENT), WANT_NAME) && expect(p, K(EQUAL), WANT_EQUAL);
    if (ok) {
        bool minus = accept(p, K(MINUS));
        ok = accept(p, K(INTEGER_LIT)) || accept(p, K(FLOAT_LIT)) ||
             (!minus && (accept(p, K(STRING_LIT)) || accept(p, K(TRUE_KW)) || accept(p, K(FALSE_KW)))) || miss(p, WANT_VALUE);
    }
    return end(p, ok);
}

static void meta_blk(struct parser *p) {
    begin(p, META_BLK);
    bool ok = expect(p, K(META_KW), WANT_SECTION) && expect(p, K(COLON), WANT_COLON) && one_or_more(p, meta_def);
    recover(p, end(p, ok), after_meta, WANT_SECTION);
}

/* All up to the closing brace. */
static bool expression(struct parser *p) {
    bool any = false;
    for (uint32_t kind = kind_ahead(p); kind != 0 && kind != K(R_BRACE); kind = kind_ahead(p)) {
        take_ahead(p);
        any = true;
    }
    return any || miss(p, WANT_EXPRESSION);
}

static void condition_blk(struct parser *p) {
    begin(p, CONDITION_BLK);
    bool ok = expect(p, K(CONDITION_KW), WANT_CONDITION) && expect(p, K(COLON), WANT_COLON) && expression(p);
    recover(p, end(p, ok), after_condition, WANT_R_BRACE);
}

static bool tag(struct parser *p) { return expect(p, K(IDENT), WANT_NAME); }

static void rule_tags(struct parser *p) {
    begin(p, RULE_TAGS);
    bool ok = expect(p, K(COLON), WANT_COLON) && one_or_more(p, tag);
    recover(p, end(p, ok), after_tags, WANT_L_BRACE);
}

/* private, global, or both */
static bool rule_mods(struct parser *p) {
    begin(p, RULE_MODS);
    bool ok = true;
    if (accept(p, K(PRIVATE_KW))) {
        accept(p, K(GLOBAL_KW));
    } else {
        ok = accept(p, K(GLOBAL_KW));
        accept(p, K(PRIVATE_KW));
    }
    return end(p, ok);
}

static void rule_decl(struct parser *p) {
    begin(p, RULE_DECL);
    attempt(p, rule_mods);
    bool ok = expect(p, K(RULE_KW), WANT_RULE) && expect(p, K(IDENT), WANT_NAME);
    if (ok && kind_ahead(p) == K(COLON)) {
        rule_tags(p);
    }
    ok = ok && expect(p, K(L_BRACE), WANT_L_BRACE);
    if (ok) {
        if (kind_ahead(p) == K(META_KW)) {
            meta_blk(p);
        }
        if (kind_ahead(p) == K(STRINGS_KW)) {
            patterns_blk(p);
        }
        condition_blk(p);
        ok = expect(p, K(R_BRACE), WANT_R_BRACE);
    }
    recover(p, end(p, ok), item_starts, WANT_ITEM);
}

/* import "..", include ".." */
static void statement(struct parser *p, enum node node) {
    begin(p, node);
    take(p);
    if (!end(p, expect(p, K(STRING_LIT), WANT_STRING))) {
        tell(p);
    }
}

static void item(struct parser *p) {
    switch (kind_ahead(p)) {
        case 0:
            break;
        case K(IMPORT_KW):
            statement(p, IMPORT_STMT);
            break;
        case K(INCLUDE_KW):
            statement(p, INCLUDE_STMT);
            break;
        case K(GLOBAL_KW):
        case K(PRIVATE_KW):
        case K(RULE_KW):
            rule_decl(p);
            break;
        default:
            recover(p, true, item_starts, WANT_ITEM);
    }
}

/* --- The outline, which is made of the events alone --- */

struct outline {
    const uint8_t *src;
    enum { SHOW_OUTLINE, SHOW_EVENTS, SHOW_SWITCHES } show;
    uint32_t depth, nodes[OPENS]; /* the nodes that are open */
    warpthistle_event item;       /* the Begin of the outermost */
    bool line;                    /* a line was begun for it */
    unsigned tags, patterns, hex_patterns;
    unsigned rules, imports, includes, errors; /* of the whole file */
};

/* Writes a word of the source behind a text. A byte that is no visible ASCII is written as \x and two digits. */
static void print_word(struct outline *o, const char *before, const warpthistle_event *word) {
    if (!o->line) {
        printf("%u..%u", (unsigned)o->item.start, (unsigned)o->item.end);
        o->line = true;
    }
    fputs(before, stdout);
    for (uint32_t i = word->start; i < word->end; i++) {
        if (o->src[i] >= ' ' && o->src[i] <= '~') {
            putchar(o->src[i]);
        } else {
            printf("\\x%02x", (unsigned)o->src[i]);
        }
    }
}

/* A token that the outline shows: modifiers, name and tags of a rule, what is imported or included. A rule that broke off is an ERROR. */
static void show_token(struct outline *o, const warpthistle_event *token) {
    uint32_t node = o->depth == 0 ? 0 : o->nodes[o->depth - 1];
    bool of_rule = (o->depth == 1 && (node == RULE_DECL || node == ERROR)) || (o->depth == 2 && node == RULE_MODS);
    switch (token->kind) {
        case K(RULE_KW):
            o->rules += of_rule;
            /* fall through */
        case K(GLOBAL_KW):
        case K(PRIVATE_KW):
            if (of_rule) {
                print_word(o, " ", token);
            }
            break;
        case K(IDENT):
            if (of_rule && o->line) {
                print_word(o, " ", token);
            } else if (node == RULE_TAGS) {
                print_word(o, o->tags++ == 0 ? ": " : " ", token);
            }
            break;
        case K(STRING_LIT):
            if (node == IMPORT_STMT) {
                o->imports++;
                print_word(o, " import ", token);
            } else if (node == INCLUDE_STMT) {
                o->includes++;
                print_word(o, " include ", token);
            }
            break;
    }
}

static void show(struct outline *o, const warpthistle_event *event) {
    switch (event->tag) {
        case WARPTHISTLE_TAG_BEGIN:
            if (o->depth == 0) {
                o->item = *event;
                o->line = false;
                o->tags = o->patterns = o->hex_patterns = 0;
            }
            o->nodes[o->depth++] = event->kind;
            o->patterns += event->kind == PATTERN_DEF;
            o->hex_patterns += event->kind == HEX_PATTERN;
            break;
        case WARPTHISTLE_TAG_END:
            o->depth--;
            if (o->depth == 0 && o->line) {
                if (event->kind == RULE_DECL || event->kind == ERROR) {
                    printf("; strings %u, hex %u%s", o->patterns, o->hex_patterns, event->kind == ERROR ? ", broken" : "");
                }
                putchar('\n');
            }
            break;
        case WARPTHISTLE_TAG_TOKEN:
            show_token(o, event);
            break;
        default:
            printf("%u..%u error: expecting %s\n", (unsigned)event->start, (unsigned)event->end, messages[event->kind]);
    }
}

/* Writes an event as it is. */
static void show_event(const warpthistle_event *event) {
    unsigned kind = event->kind, start = event->start, end = event->end;
    switch (event->tag) {
        case WARPTHISTLE_TAG_TOKEN:
            printf("token %u %u %u\n", kind, start, end);
            break;
        case WARPTHISTLE_TAG_ERROR:
            printf("error %u %u expecting %s\n", start, end, messages[kind]);
            break;
        default:
            printf("%s %s %u %u\n", event->tag == WARPTHISTLE_TAG_BEGIN ? "begin" : "end",
                   kind == ERROR ? "ERROR" : node_names[kind - IMPORT_STMT], start, end);
    }
}

/* Pushes the errors of an item behind it, and takes all events out of the stream. */
static void hand_on(struct parser *p, struct outline *o) {
    for (uint32_t i = 0; i < p->error_count; i++) {
        done(p, warpthistle_events_push_error(EVENTS(p), (uint16_t)p->errors[i].message, p->errors[i].start, p->errors[i].end));
    }
    o->errors += p->error_count;
    p->error_count = 0;
    warpthistle_event event;
    while (done(p, warpthistle_events_pop(EVENTS(p), &event))) {
        if (o->show == SHOW_OUTLINE) {
            show(o, &event);
        } else if (o->show == SHOW_EVENTS) {
            show_event(&event);
        }
    }
}

/* Reads a source item by item. Each item takes a token at least, so this ends. */
static void read_source(struct parser *p, struct outline *o) {
    done(p, warpthistle_window_open(WINDOW(p)));
    done(p, warpthistle_events_open(EVENTS(p)));
    while (p->refused == 0 && done(p, warpthistle_window_has_more(WINDOW(p)))) {
        take_trivia(p);
        item(p);
        hand_on(p, o);
    }
    if (o->show == SHOW_OUTLINE) {
        printf("rules %u, imports %u, includes %u, errors %u\n", o->rules, o->imports, o->includes, o->errors);
    }
}

/* --- The program --- */

/* Memory for so many bytes, never null: no call takes a null pointer, not even where its length is 0. */
static void *allocate(size_t bytes) {
    void *memory = calloc(bytes == 0 ? 1 : bytes, 1);
    if (memory == NULL) {
        fputs("outline: no memory\n", stderr);
        exit(1);
    }
    return memory;
}

/* Reads a file, of more than 65,535 bytes the first 65,536. */
static bool read_file(const char *name, uint8_t *bytes, size_t *len) {
    FILE *file = name == NULL ? stdin : fopen(name, "rb");
    if (file == NULL) {
        return false;
    }
    *len = fread(bytes, 1, WARPTHISTLE_SOURCE_LIMIT + 1, file);
    bool ok = ferror(file) == 0;
    if (file != stdin) {
        fclose(file);
    }
    return ok;
}

int main(int argc, char **argv) {
    static struct parser p;
    static struct outline o;
    static uint8_t bytes[WARPTHISTLE_SOURCE_LIMIT + 1];
    if (argc > 1 && strcmp(argv[1], "--events") == 0) {
        o.show = SHOW_EVENTS;
    } else if (argc > 1 && strcmp(argv[1], "--switches") == 0) {
        o.show = SHOW_SWITCHES;
    }
    int words = o.show == SHOW_OUTLINE ? 1 : 2;
    if (argc > words + 1 || (argc > words && argv[words][0] == '-')) {
        fputs("usage: outline [--events | --switches] [FILE]\n", stderr);
        return 2;
    }
    const char *name = argc > words ? argv[words] : NULL;
    if (!read_file(name, bytes, &p.len)) {
        fprintf(stderr, "outline: %s cannot be read\n", name == NULL ? "standard input" : name);
        return 1;
    }
    if (p.len > WARPTHISTLE_SOURCE_LIMIT) {
        fprintf(stderr, "outline: %s has more than 65535 bytes\n", name == NULL ? "standard input" : name);
        return 1;
    }
    uint8_t *src = memcpy(allocate(p.len), bytes, p.len); /* just so long, so that sanitizers see what is read past it */
    p.src = o.src = src;
    p.room_len = WARPTHISTLE_TOKEN_NUMBERS * p.len; /* as many slots as bytes: the window is never full */
    p.room = allocate(p.room_len * sizeof *p.room);
    p.slots_len = WARPTHISTLE_EVENT_NUMBERS * SLOTS(p.len);
    p.slots = allocate(p.slots_len * sizeof *p.slots);
    p.show_switches = o.show == SHOW_SWITCHES;
    read_source(&p, &o);
    if (p.refused != 0) {
        fprintf(stderr, "outline: a call was refused by %u\n", (unsigned)p.refused);
    }
    free(src);
    free(p.room);
    free(p.slots);
    return p.refused != 0 || o.errors > 0;
}
