//! Document 01's numbers of the Rust's kinds of tokens.
use crate::Span;
use crate::tokenizer::{Token, TokenId};
use reading::plain::Tok;

/// The kinds by name, in document 01's order, which numbers them from 1 on: as the Rust's kinds, and as what makes a token of a span.
macro_rules! in_order {
    ($($name:ident)*) => {
        const KINDS: [TokenId; 82] = [$(TokenId::$name),*];
        const MAKERS: [fn(Span) -> Token; 82] = [$(Token::$name),*];
    };
}

in_order! {
    ALL_KW AND_KW ANY_KW ASCII_KW AT_KW BASE64_KW BASE64WIDE_KW CONDITION_KW CONTAINS_KW DEFINED_KW
    ENDSWITH_KW ENTRYPOINT_KW FALSE_KW FILESIZE_KW FOR_KW FULLWORD_KW GLOBAL_KW ICONTAINS_KW IENDSWITH_KW IEQUALS_KW
    IMPORT_KW IN_KW INCLUDE_KW ISTARTSWITH_KW MATCHES_KW META_KW NOCASE_KW NONE_KW NOT_KW OF_KW
    OR_KW PRIVATE_KW RULE_KW STARTSWITH_KW STRINGS_KW THEM_KW TRUE_KW WIDE_KW WITH_KW XOR_KW
    SHL SHR EQ NE LE GE LT GT AMPERSAND ASTERISK BACKSLASH COLON COMMA DOT EQUAL PLUS HYPHEN PERCENT PIPE CARET TILDE
    L_BRACE R_BRACE L_PAREN R_PAREN L_BRACKET R_BRACKET
    PATTERN_IDENT PATTERN_COUNT PATTERN_OFFSET PATTERN_LENGTH IDENT FLOAT_LIT INTEGER_LIT STRING_LIT REGEXP COMMENT
    WHITESPACE NEWLINE HEX_BYTE INVALID_UTF8 UNKNOWN
}

/// Document 01's number of a kind.
pub fn number_of(kind: TokenId) -> u32 {
    KINDS.iter().position(|one| *one == kind).expect("a kind that document 01 has") as u32 + 1
}

/// A token of the Rust in document 01's numbers.
pub fn numbered(token: &Token) -> Tok {
    Tok { kind: number_of(token.id()), start: token.span().start() as u32, end: token.span().end() as u32 }
}

/// The Rust's token of a token in document 01's numbers.
pub fn token_of(tok: &Tok) -> Token {
    MAKERS[tok.kind as usize - 1](Span(tok.start..tok.end))
}
