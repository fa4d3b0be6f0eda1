//! Document 01's numbers of the Rust's kinds.
use crate::cst::SyntaxKind;
use crate::tokenizer::{Token, TokenId, TokenId::*};
use crate::{Span, Tok};

/// The kinds of tokens in document 01's order, which numbers them from 1 on.
#[rustfmt::skip]
const KINDS: [TokenId; 82] = [
    ALL_KW, AND_KW, ANY_KW, ASCII_KW, AT_KW, BASE64_KW, BASE64WIDE_KW, CONDITION_KW, CONTAINS_KW, DEFINED_KW,
    ENDSWITH_KW, ENTRYPOINT_KW, FALSE_KW, FILESIZE_KW, FOR_KW, FULLWORD_KW, GLOBAL_KW, ICONTAINS_KW, IENDSWITH_KW, IEQUALS_KW,
    IMPORT_KW, IN_KW, INCLUDE_KW, ISTARTSWITH_KW, MATCHES_KW, META_KW, NOCASE_KW, NONE_KW, NOT_KW, OF_KW,
    OR_KW, PRIVATE_KW, RULE_KW, STARTSWITH_KW, STRINGS_KW, THEM_KW, TRUE_KW, WIDE_KW, WITH_KW, XOR_KW,
    SHL, SHR, EQ, NE, LE, GE, LT, GT, AMPERSAND, ASTERISK, BACKSLASH, COLON, COMMA, DOT, EQUAL, PLUS, HYPHEN, PERCENT, PIPE, CARET, TILDE,
    L_BRACE, R_BRACE, L_PAREN, R_PAREN, L_BRACKET, R_BRACKET,
    PATTERN_IDENT, PATTERN_COUNT, PATTERN_OFFSET, PATTERN_LENGTH, IDENT, FLOAT_LIT, INTEGER_LIT, STRING_LIT, REGEXP, COMMENT,
    WHITESPACE, NEWLINE, HEX_BYTE, INVALID_UTF8, UNKNOWN,
];

/// Document 01's number of each kind of token.
const NUMBERS: [u32; 82] = {
    let mut numbers = [0; 82];
    let mut k = 0;
    while k < 82 {
        numbers[KINDS[k] as usize] = k as u32 + 1;
        k += 1;
    }
    numbers
};

/// A token of the Rust in document 01's numbers.
pub fn numbered(token: &Token) -> Tok {
    let Span(span) = token.span();
    Tok { kind: NUMBERS[token.id() as usize], start: span.start, end: span.end }
}

/// The greatest number of a syntax kind: 0 is ERROR, the others follow in the order of the Rust.
pub const LAST_KIND: u32 = SyntaxKind::INVALID_UTF8 as u32;

/// The syntax kind of a number.
pub fn kind_of(number: u32) -> SyntaxKind {
    assert!(number <= LAST_KIND, "syntax kinds are 0 to {LAST_KIND}");
    let error = SyntaxKind::ERROR as u32;
    let value = match number {
        0 => error,
        n if n <= error => n - 1,
        n => n,
    };
    // SAFETY: SyntaxKind is repr(u16) with consecutive values, and this one is at most the last.
    unsafe { std::mem::transmute::<u16, SyntaxKind>(value as u16) }
}

/// The number of a syntax kind.
pub fn number_of(kind: SyntaxKind) -> u32 {
    let error = SyntaxKind::ERROR as u32;
    match kind as u32 {
        value if value == error => 0,
        value if value < error => value + 1,
        value => value,
    }
}
