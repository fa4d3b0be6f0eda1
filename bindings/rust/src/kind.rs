// SPDX-License-Identifier: BSD-3-Clause
//! The kinds of tokens.
use std::fmt;

/// Makes the enum, and what it has for each kind: its number, its name, its spelling where it has but one, and what is said of it.
macro_rules! kinds {
    ($($kind:ident = $number:literal, $name:literal, $spelling:literal, $doc:literal;)*) => {
        /// The kind of a token.
        ///
        /// The numbers are those of the C header, from 1 to 82; [`Kind::name`] gives the names that it has.
        ///
        /// ```
        /// use warpthistle::Kind;
        /// assert_eq!(Kind::RuleKw.name(), "RULE_KW");
        /// assert_eq!(Kind::RuleKw.number(), 33);
        /// assert_eq!(Kind::RuleKw.spelling(), Some("rule"));
        /// assert_eq!(Kind::from_number(33), Some(Kind::RuleKw));
        /// assert_eq!(Kind::Ident.to_string(), "IDENT");
        /// ```
        #[derive(Clone, Copy, Debug, PartialEq, Eq, PartialOrd, Ord, Hash)]
        #[repr(u8)]
        #[non_exhaustive]
        pub enum Kind {
            $(#[doc = $doc] $kind = $number,)*
        }

        impl Kind {
            /// All kinds, in the order of their numbers.
            pub const ALL: &'static [Kind] = &[$(Kind::$kind,)*];

            /// The name of the kind, as the C header has it without its prefix: `ALL_KW` for the keyword `all`.
            pub const fn name(self) -> &'static str {
                match self {
                    $(Kind::$kind => $name,)*
                }
            }

            /// How a token of this kind is spelled, where there is but one way: keywords, operators and brackets have one.
            pub const fn spelling(self) -> Option<&'static str> {
                let spelling = match self {
                    $(Kind::$kind => $spelling,)*
                };
                if spelling.is_empty() {
                    None
                } else {
                    Some(spelling)
                }
            }
        }
    };
}

#[rustfmt::skip]
kinds! {
    AllKw = 1, "ALL_KW", "all", "The keyword `all`.";
    AndKw = 2, "AND_KW", "and", "The keyword `and`.";
    AnyKw = 3, "ANY_KW", "any", "The keyword `any`.";
    AsciiKw = 4, "ASCII_KW", "ascii", "The keyword `ascii`.";
    AtKw = 5, "AT_KW", "at", "The keyword `at`.";
    Base64Kw = 6, "BASE64_KW", "base64", "The keyword `base64`.";
    Base64wideKw = 7, "BASE64WIDE_KW", "base64wide", "The keyword `base64wide`.";
    ConditionKw = 8, "CONDITION_KW", "condition", "The keyword `condition`.";
    ContainsKw = 9, "CONTAINS_KW", "contains", "The keyword `contains`.";
    DefinedKw = 10, "DEFINED_KW", "defined", "The keyword `defined`.";
    EndswithKw = 11, "ENDSWITH_KW", "endswith", "The keyword `endswith`.";
    EntrypointKw = 12, "ENTRYPOINT_KW", "entrypoint", "The keyword `entrypoint`.";
    FalseKw = 13, "FALSE_KW", "false", "The keyword `false`.";
    FilesizeKw = 14, "FILESIZE_KW", "filesize", "The keyword `filesize`.";
    ForKw = 15, "FOR_KW", "for", "The keyword `for`.";
    FullwordKw = 16, "FULLWORD_KW", "fullword", "The keyword `fullword`.";
    GlobalKw = 17, "GLOBAL_KW", "global", "The keyword `global`.";
    IcontainsKw = 18, "ICONTAINS_KW", "icontains", "The keyword `icontains`.";
    IendswithKw = 19, "IENDSWITH_KW", "iendswith", "The keyword `iendswith`.";
    IequalsKw = 20, "IEQUALS_KW", "iequals", "The keyword `iequals`.";
    ImportKw = 21, "IMPORT_KW", "import", "The keyword `import`.";
    InKw = 22, "IN_KW", "in", "The keyword `in`.";
    IncludeKw = 23, "INCLUDE_KW", "include", "The keyword `include`.";
    IstartswithKw = 24, "ISTARTSWITH_KW", "istartswith", "The keyword `istartswith`.";
    MatchesKw = 25, "MATCHES_KW", "matches", "The keyword `matches`.";
    MetaKw = 26, "META_KW", "meta", "The keyword `meta`.";
    NocaseKw = 27, "NOCASE_KW", "nocase", "The keyword `nocase`.";
    NoneKw = 28, "NONE_KW", "none", "The keyword `none`.";
    NotKw = 29, "NOT_KW", "not", "The keyword `not`.";
    OfKw = 30, "OF_KW", "of", "The keyword `of`.";
    OrKw = 31, "OR_KW", "or", "The keyword `or`.";
    PrivateKw = 32, "PRIVATE_KW", "private", "The keyword `private`.";
    RuleKw = 33, "RULE_KW", "rule", "The keyword `rule`.";
    StartswithKw = 34, "STARTSWITH_KW", "startswith", "The keyword `startswith`.";
    StringsKw = 35, "STRINGS_KW", "strings", "The keyword `strings`.";
    ThemKw = 36, "THEM_KW", "them", "The keyword `them`.";
    TrueKw = 37, "TRUE_KW", "true", "The keyword `true`.";
    WideKw = 38, "WIDE_KW", "wide", "The keyword `wide`.";
    WithKw = 39, "WITH_KW", "with", "The keyword `with`.";
    XorKw = 40, "XOR_KW", "xor", "The keyword `xor`.";
    ShiftLeft = 41, "SHIFT_LEFT", "<<", "`<<`";
    ShiftRight = 42, "SHIFT_RIGHT", ">>", "`>>`";
    Eq = 43, "EQ", "==", "`==`";
    Ne = 44, "NE", "!=", "`!=`";
    Le = 45, "LE", "<=", "`<=`";
    Ge = 46, "GE", ">=", "`>=`";
    Lt = 47, "LT", "<", "`<`";
    Gt = 48, "GT", ">", "`>`";
    Ampersand = 49, "AMPERSAND", "&", "`&`";
    Asterisk = 50, "ASTERISK", "*", "`*`";
    Backslash = 51, "BACKSLASH", "\\", "`\\`";
    Colon = 52, "COLON", ":", "`:`";
    Comma = 53, "COMMA", ",", "`,`";
    Dot = 54, "DOT", ".", "`.`";
    Equal = 55, "EQUAL", "=", "`=`";
    Plus = 56, "PLUS", "+", "`+`";
    Minus = 57, "MINUS", "-", "`-`";
    Percent = 58, "PERCENT", "%", "`%`";
    Pipe = 59, "PIPE", "|", "`|`";
    Caret = 60, "CARET", "^", "`^`";
    Tilde = 61, "TILDE", "~", "`~`";
    LBrace = 62, "L_BRACE", "{", "`{`";
    RBrace = 63, "R_BRACE", "}", "`}`";
    LParen = 64, "L_PAREN", "(", "`(`";
    RParen = 65, "R_PAREN", ")", "`)`";
    LBracket = 66, "L_BRACKET", "[", "`[`";
    RBracket = 67, "R_BRACKET", "]", "`]`";
    PatternIdent = 68, "PATTERN_IDENT", "", "`$` and a word tail, perhaps empty: `$a`.";
    PatternCount = 69, "PATTERN_COUNT", "", "`#` and a word tail, perhaps empty: `#a`.";
    PatternOffset = 70, "PATTERN_OFFSET", "", "`@` and a word tail, perhaps empty: `@a`.";
    PatternLength = 71, "PATTERN_LENGTH", "", "`!` and a word tail, perhaps empty: `!a`.";
    Ident = 72, "IDENT", "", "A name: an ASCII letter or `_`, then letters, `_` and decimal digits.";
    FloatLit = 73, "FLOAT_LIT", "", "A number with a dot: `1.5`.";
    IntegerLit = 74, "INTEGER_LIT", "", "A whole number: `10`, `0x1F`, `0o17`, `2KB`.";
    StringLit = 75, "STRING_LIT", "", "A text in quotes, or in three quotes at each end.";
    Regexp = 76, "REGEXP", "", "A regular expression between slashes, with up to two letters behind it: `/a+/i`.";
    Comment = 77, "COMMENT", "", "A comment, by `//` or between `/*` and `*/`.";
    Whitespace = 78, "WHITESPACE", "", "A run of blanks.";
    Newline = 79, "NEWLINE", "", "The end of a line: LF, CR, or CR LF.";
    HexByte = 80, "HEX_BYTE", "", "A byte of a hex pattern: `9C`, `?A`, `~??`.";
    InvalidUtf8 = 81, "INVALID_UTF8", "", "A byte that is no UTF-8.";
    Unknown = 82, "UNKNOWN", "", "Text that no rule matches.";
}

impl Kind {
    /// The number of the kind, from 1 to 82. Events take it as theirs.
    pub const fn number(self) -> u16 {
        self as u16
    }

    /// The kind that has this number, if there is one.
    pub fn from_number(number: u16) -> Option<Kind> {
        Kind::of(number.into())
    }

    /// The kind of a number that the library wrote.
    #[inline]
    pub(crate) fn of(number: u32) -> Option<Kind> {
        Kind::ALL.get((number as usize).wrapping_sub(1)).copied()
    }

    /// Whether this is a keyword.
    ///
    /// ```
    /// use warpthistle::Kind;
    /// assert!(Kind::GlobalKw.is_keyword() && !Kind::Ident.is_keyword());
    /// ```
    pub const fn is_keyword(self) -> bool {
        self as u8 <= Kind::XorKw as u8
    }

    /// Whether a grammar passes over it: blanks, ends of lines and comments.
    ///
    /// ```
    /// use warpthistle::Kind;
    /// assert!(Kind::Newline.is_trivia() && !Kind::Unknown.is_trivia());
    /// ```
    pub const fn is_trivia(self) -> bool {
        matches!(self, Kind::Comment | Kind::Whitespace | Kind::Newline)
    }
}

/// Writes the name.
impl fmt::Display for Kind {
    fn fmt(&self, f: &mut fmt::Formatter<'_>) -> fmt::Result {
        f.pad(self.name())
    }
}

/// The kind's number, as events take it.
impl From<Kind> for u16 {
    fn from(kind: Kind) -> u16 {
        kind.number()
    }
}
