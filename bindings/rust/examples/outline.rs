// SPDX-License-Identifier: BSD-3-Clause
//! Prints the outline of a YARA rule file, as an editor shows it beside the text: imports, rules and errors, and where they stand.
//!
//! ```text
//! cargo run --offline --example outline -- [--events | --switches] [FILE]
//! ```
//!
//! Without a file it reads standard input. `--events` prints the events that the parser hands on instead, `--switches` where it enters the
//! hex modes. Exit status: 0 no error was found; 1 one was, or the file could not be read, or has more than 65,535 bytes; 2 wrong words.
//!
//! It is a small parser that decides each call by the last answer. It looks ahead past blanks and comments, tries a definition and goes
//! back where it fails, enters the hex modes where the parser of yara-x does, and goes on behind an error at the next token that it knows.
//! It does not take conditions apart. Every file is read to its end, whatever its bytes are. The repository's examples/outline.c is the
//! same in C, and prints the same.
//!
//! Read it from below: `read_source` is the loop over the items of a file, `rule_decl` reads a rule.
use std::ffi::{OsStr, OsString};
use std::io::{self, BufWriter, Read, Write};
use std::ops::Range;
use std::process::ExitCode;
use warpthistle::{Event, EventStream, Kind, Mode, Refusal, Token, TokenStream, SOURCE_LIMIT};

/// Names for numbers, and a function that gives the text of each.
macro_rules! numbers {
    ($of:ident: $($name:ident = $number:literal $text:expr;)*) => {
        $(const $name: u16 = $number;)*
        fn $of(number: u16) -> &'static str {
            match number {
                $($name => $text,)*
                _ => "?",
            }
        }
    };
}

// The nodes of the tree that the events make. Their kinds are ours to choose, but for 0, which a node that ends with an error gets. Tokens
// keep the kinds that they have, 1 to 82.
numbers! { node_name:
    ERROR = 0 "ERROR";
    IMPORT_STMT = 100 "IMPORT_STMT";
    INCLUDE_STMT = 101 "INCLUDE_STMT";
    RULE_DECL = 102 "RULE_DECL";
    RULE_MODS = 103 "RULE_MODS";
    RULE_TAGS = 104 "RULE_TAGS";
    META_BLK = 105 "META_BLK";
    META_DEF = 106 "META_DEF";
    PATTERNS_BLK = 107 "PATTERNS_BLK";
    PATTERN_DEF = 108 "PATTERN_DEF";
    HEX_PATTERN = 109 "HEX_PATTERN";
    HEX_ALTERNATIVE = 110 "HEX_ALTERNATIVE";
    HEX_JUMP = 111 "HEX_JUMP";
    CONDITION_BLK = 112 "CONDITION_BLK";
}

// What can be missed.
numbers! { message_text:
    WANT_ITEM = 0 "an import, an include or a rule";
    WANT_STRING = 1 "a string";
    WANT_RULE = 2 "`rule`";
    WANT_NAME = 3 "a name";
    WANT_L_BRACE = 4 "`{`";
    WANT_R_BRACE = 5 "`}`";
    WANT_COLON = 6 "`:`";
    WANT_EQUAL = 7 "`=`";
    WANT_VALUE = 8 "a number, a string, `true` or `false`";
    WANT_SECTION = 9 "`strings` or `condition`";
    WANT_PATTERN_NAME = 10 "a name that begins with `$`";
    WANT_PATTERN = 11 "a string, a regular expression or a hex pattern";
    WANT_CONDITION = 12 "`condition`";
    WANT_EXPRESSION = 13 "an expression";
    WANT_R_PAREN = 14 "`)`";
    WANT_INTEGER = 15 "an integer";
    WANT_HEX = 16 "a hex byte or an alternative in parentheses";
    WANT_R_BRACKET = 17 "`]`";
    WANT_LESS_DEPTH = 18 "alternatives that are nested less deeply";
}

// Where the parser goes on behind an error: at one of these tokens. yara-x's parser does the same, but that it passes imports over where
// what stands between items is no item.
const ITEM_STARTS: &[Kind] = &[Kind::GlobalKw, Kind::PrivateKw, Kind::RuleKw, Kind::ImportKw, Kind::IncludeKw];
const AFTER_TAGS: &[Kind] = &[Kind::LBrace];
const AFTER_META: &[Kind] = &[Kind::StringsKw, Kind::ConditionKw];
const AFTER_STRINGS: &[Kind] = &[Kind::ConditionKw];
const AFTER_CONDITION: &[Kind] = &[Kind::RBrace];

/// How deep alternatives of hex patterns may nest. A token stream has at most 64 live bookmarks, and each level holds two.
const DEPTH_LIMIT: usize = 16;
/// Places for the nodes that can be open at once: rule, patterns, definition, hex pattern, its alternatives, a jump.
const OPENS: usize = DEPTH_LIMIT + 5;

/// Whether something was found, unless a call was refused. With the room that there is none should be.
type Parsed = Result<bool, Refusal>;

/// What was missed, and the bytes that stand there.
#[derive(Clone)]
struct Miss {
    message: u16,
    span: Range<usize>,
}

struct Parser<'src> {
    tokens: TokenStream<'src>,
    events: EventStream,
    /// Of alternatives.
    depth: usize,
    /// What was missed since the last error; of several the one furthest on.
    missed: Option<Miss>,
    /// Those of the item that is read: they are handed on behind it.
    errors: Vec<Miss>,
    /// Where the last error starts.
    told: Option<usize>,
    /// How many tokens were fetched, and where the last of them ends: there a switch acts.
    fetched: usize,
    place: usize,
    /// The mode, and both, at each switch.
    switches: Vec<(Mode, usize, usize)>,
}

/// Tokens: looking ahead, and taking.
impl<'src> Parser<'src> {
    /// Opens a source. A token makes four events at most: its own, Begin and End of the node that it is the first of, and an error.
    fn new(src: &'src [u8]) -> Result<Self, Refusal> {
        let (tokens, events) = (TokenStream::new(src)?, EventStream::new(4 * src.len() + 64, OPENS));
        let (errors, switches) = (Vec::new(), Vec::new());
        Ok(Parser { tokens, events, depth: 0, missed: None, errors, told: None, fetched: 0, place: 0, switches })
    }

    /// The token n after the current one.
    fn peek(&mut self, n: usize) -> Option<Token> {
        let token = self.tokens.peek_token(n)?;
        if token.span().end > self.place {
            self.place = token.span().end;
            self.fetched += 1;
        }
        Some(token)
    }

    /// Looks ahead past blanks, newlines and comments: the token there, none at the end of the source. Nothing is taken.
    fn look(&mut self) -> Option<Token> {
        let mut n = 0;
        while self.peek(n)?.kind.is_trivia() {
            n += 1;
        }
        self.peek(n)
    }

    fn kind_ahead(&mut self) -> Option<Kind> {
        self.look().map(|token| token.kind)
    }

    /// Takes the current token, and pushes it as an event.
    fn take(&mut self) -> Result<(), Refusal> {
        match self.tokens.next_token() {
            Some(token) => self.events.push_token(token.kind.number(), token.span()),
            None => Ok(()),
        }
    }

    fn take_trivia(&mut self) -> Result<(), Refusal> {
        while self.peek(0).is_some_and(|token| token.kind.is_trivia()) {
            self.take()?;
        }
        Ok(())
    }

    /// Takes the token ahead, with the trivia before it.
    fn take_ahead(&mut self) -> Result<(), Refusal> {
        self.take_trivia()?;
        self.take()
    }

    /// Takes the token ahead if it is of this kind.
    fn accept(&mut self, kind: Kind) -> Parsed {
        let found = self.kind_ahead() == Some(kind);
        if found {
            self.take_ahead()?;
        }
        Ok(found)
    }

    /// Notes what is missed where the token ahead stands, unless something was missed further on.
    fn miss(&mut self, message: u16) -> Parsed {
        let end = self.tokens.source().len();
        let span = self.look().map_or(end..end, |token| token.span());
        if self.missed.as_ref().is_none_or(|missed| span.start >= missed.span.start) {
            self.missed = Some(Miss { message, span });
        }
        Ok(false)
    }

    fn expect(&mut self, kind: Kind, message: u16) -> Parsed {
        Ok(self.accept(kind)? || self.miss(message)?)
    }
}

/// Events, and going back.
impl Parser<'_> {
    /// Begins a node, behind the trivia.
    fn begin(&mut self, kind: u16) -> Result<(), Refusal> {
        self.take_trivia()?;
        self.events.begin(kind)
    }

    /// Ends the node begun last, and answers whether it is whole. One that is not becomes an ERROR, or goes away where it is empty.
    fn end(&mut self, whole: bool) -> Parsed {
        if whole {
            self.events.end()?;
        } else {
            self.events.end_with_error()?;
        }
        Ok(whole)
    }

    /// Tries something. Where it fails, the tokens that it took will come again, and the events that it pushed are taken back.
    fn attempt(&mut self, something: fn(&mut Self) -> Parsed) -> Parsed {
        let (token, event) = (self.tokens.bookmark()?, self.events.bookmark()?);
        let ok = something(self)?;
        if !ok {
            self.tokens.restore_bookmark(&token)?;
            self.events.truncate(&event)?;
        }
        self.tokens.remove_bookmark(token)?;
        self.events.remove_bookmark(event)?;
        Ok(ok)
    }

    /// As many of something as there are. Each takes a token or fails, so this ends.
    fn zero_or_more(&mut self, something: fn(&mut Self) -> Parsed) -> Parsed {
        while self.attempt(something)? {}
        Ok(true)
    }

    fn one_or_more(&mut self, something: fn(&mut Self) -> Parsed) -> Parsed {
        Ok(something(self)? && self.zero_or_more(something)?)
    }

    /// Makes an error of what was missed; of two at the same place the first stays.
    fn tell(&mut self) {
        if let Some(missed) = self.missed.take() {
            if self.told != Some(missed.span.start) {
                self.told = Some(missed.span.start);
                self.errors.push(missed);
            }
        }
    }

    /// Goes on behind a part of the file. If it is not whole, or none of the wanted tokens follows, there is an error; what stands before
    /// the next wanted one becomes an ERROR node.
    fn recover(&mut self, whole: bool, wanted: &[Kind], message: u16) -> Result<(), Refusal> {
        let other = |token: &Token| !wanted.contains(&token.kind);
        let ahead = self.look().filter(other);
        if let Some(token) = &ahead {
            if self.missed.as_ref().is_none_or(|missed| missed.span.start < token.span().start) {
                self.miss(message)?;
            }
        }
        if ahead.is_some() || !whole {
            self.tell();
        }
        if ahead.is_some() {
            self.begin(ERROR)?;
            while self.look().filter(other).is_some() {
                self.take_ahead()?;
            }
            self.end(true)?;
        }
        Ok(())
    }
}

/// Hex patterns.
impl Parser<'_> {
    /// A switch acts behind the last token that was fetched. So it is made when the bracket was taken, and nothing behind it was looked at.
    fn enter_mode(&mut self, mode: Mode) {
        self.switches.push((mode, self.fetched, self.place));
        match mode {
            Mode::HexJump => self.tokens.enter_hex_jump_mode(),
            _ => self.tokens.enter_hex_pattern_mode(),
        }
    }

    /// 2-4, 2-, -4 or -
    fn hex_range(&mut self) -> Parsed {
        self.accept(Kind::IntegerLit)?;
        if !self.expect(Kind::Minus, WANT_INTEGER)? {
            return Ok(false);
        }
        self.accept(Kind::IntegerLit)?;
        Ok(true)
    }

    /// [2-4] or [2]. In jump mode 10 is an integer, in pattern mode it is a byte.
    fn hex_jump(&mut self) -> Parsed {
        self.begin(HEX_JUMP)?;
        let mut ok = self.expect(Kind::LBracket, WANT_HEX)?;
        if ok {
            self.enter_mode(Mode::HexJump);
            ok = (self.attempt(Self::hex_range)? || self.expect(Kind::IntegerLit, WANT_INTEGER)?)
                && self.expect(Kind::RBracket, WANT_R_BRACKET)?;
        }
        self.end(ok)
    }

    fn hex_other(&mut self) -> Parsed {
        Ok(self.expect(Kind::Pipe, WANT_R_PAREN)? && self.hex_sub_pattern()?)
    }

    /// (4D 5A | 5A)
    fn hex_alternative(&mut self) -> Parsed {
        if self.depth == DEPTH_LIMIT {
            return self.miss(WANT_LESS_DEPTH);
        }
        self.depth += 1;
        self.begin(HEX_ALTERNATIVE)?;
        let ok = self.expect(Kind::LParen, WANT_HEX)?
            && self.hex_sub_pattern()?
            && self.zero_or_more(Self::hex_other)?
            && self.expect(Kind::RParen, WANT_R_PAREN)?;
        self.depth -= 1;
        self.end(ok)
    }

    fn hex_element(&mut self) -> Parsed {
        Ok(self.accept(Kind::HexByte)? || self.hex_alternative()?)
    }

    /// Jumps and the element behind them. Where none is there, the jumps are not taken: they stand between elements only.
    fn hex_more(&mut self) -> Parsed {
        Ok(self.zero_or_more(Self::hex_jump)? && self.hex_element()?)
    }

    fn hex_sub_pattern(&mut self) -> Parsed {
        Ok(self.hex_element()? && self.zero_or_more(Self::hex_more)?)
    }

    /// { 4D 5A [2-4] ?? }
    fn hex_pattern(&mut self) -> Parsed {
        self.begin(HEX_PATTERN)?;
        let mut ok = self.expect(Kind::LBrace, WANT_PATTERN)?;
        if ok {
            self.enter_mode(Mode::HexPattern);
            ok = self.hex_sub_pattern()? && self.expect(Kind::RBrace, WANT_R_BRACE)?;
        }
        self.end(ok)
    }
}

/// Rules.
impl Parser<'_> {
    /// ascii, base64("..") or xor(1-2), say
    fn pattern_mod(&mut self) -> Parsed {
        match self.kind_ahead() {
            Some(Kind::AsciiKw | Kind::WideKw | Kind::NocaseKw | Kind::PrivateKw | Kind::FullwordKw) => {
                self.take_ahead()?;
                Ok(true)
            }
            Some(Kind::Base64Kw | Kind::Base64wideKw) => {
                self.take_ahead()?;
                Ok(!self.accept(Kind::LParen)?
                    || (self.expect(Kind::StringLit, WANT_STRING)? && self.expect(Kind::RParen, WANT_R_PAREN)?))
            }
            Some(Kind::XorKw) => {
                self.take_ahead()?;
                Ok(!self.accept(Kind::LParen)?
                    || (self.expect(Kind::IntegerLit, WANT_INTEGER)?
                        && (!self.accept(Kind::Minus)? || self.expect(Kind::IntegerLit, WANT_INTEGER)?)
                        && self.expect(Kind::RParen, WANT_R_PAREN)?))
            }
            _ => Ok(false),
        }
    }

    /// $a = "..", $a = /../ or $a = { .. }, and modifiers
    fn pattern_def(&mut self) -> Parsed {
        self.begin(PATTERN_DEF)?;
        let ok = self.expect(Kind::PatternIdent, WANT_PATTERN_NAME)?
            && self.expect(Kind::Equal, WANT_EQUAL)?
            && (self.accept(Kind::StringLit)? || self.accept(Kind::Regexp)? || self.hex_pattern()?)
            && self.zero_or_more(Self::pattern_mod)?;
        self.end(ok)
    }

    fn patterns_blk(&mut self) -> Result<(), Refusal> {
        self.begin(PATTERNS_BLK)?;
        let ok =
            self.expect(Kind::StringsKw, WANT_SECTION)? && self.expect(Kind::Colon, WANT_COLON)? && self.one_or_more(Self::pattern_def)?;
        self.end(ok)?;
        self.recover(ok, AFTER_STRINGS, WANT_CONDITION)
    }

    /// name = value
    fn meta_def(&mut self) -> Parsed {
        self.begin(META_DEF)?;
        let mut ok = self.expect(Kind::Ident, WANT_NAME)? && self.expect(Kind::Equal, WANT_EQUAL)?;
        if ok {
            let minus = self.accept(Kind::Minus)?;
            ok = self.accept(Kind::IntegerLit)?
                || self.accept(Kind::FloatLit)?
                || (!minus && (self.accept(Kind::StringLit)? || self.accept(Kind::TrueKw)? || self.accept(Kind::FalseKw)?))
                || self.miss(WANT_VALUE)?;
        }
        self.end(ok)
    }

    fn meta_blk(&mut self) -> Result<(), Refusal> {
        self.begin(META_BLK)?;
        let ok = self.expect(Kind::MetaKw, WANT_SECTION)? && self.expect(Kind::Colon, WANT_COLON)? && self.one_or_more(Self::meta_def)?;
        self.end(ok)?;
        self.recover(ok, AFTER_META, WANT_SECTION)
    }

    /// All up to the closing brace.
    fn expression(&mut self) -> Parsed {
        let mut any = false;
        while self.kind_ahead().is_some_and(|kind| kind != Kind::RBrace) {
            self.take_ahead()?;
            any = true;
        }
        Ok(any || self.miss(WANT_EXPRESSION)?)
    }

    fn condition_blk(&mut self) -> Result<(), Refusal> {
        self.begin(CONDITION_BLK)?;
        let ok = self.expect(Kind::ConditionKw, WANT_CONDITION)? && self.expect(Kind::Colon, WANT_COLON)? && self.expression()?;
        self.end(ok)?;
        self.recover(ok, AFTER_CONDITION, WANT_R_BRACE)
    }

    fn tag(&mut self) -> Parsed {
        self.expect(Kind::Ident, WANT_NAME)
    }

    fn rule_tags(&mut self) -> Result<(), Refusal> {
        self.begin(RULE_TAGS)?;
        let ok = self.expect(Kind::Colon, WANT_COLON)? && self.one_or_more(Self::tag)?;
        self.end(ok)?;
        self.recover(ok, AFTER_TAGS, WANT_L_BRACE)
    }

    /// private, global, or both
    fn rule_mods(&mut self) -> Parsed {
        self.begin(RULE_MODS)?;
        let mut ok = true;
        if self.accept(Kind::PrivateKw)? {
            self.accept(Kind::GlobalKw)?;
        } else {
            ok = self.accept(Kind::GlobalKw)?;
            self.accept(Kind::PrivateKw)?;
        }
        self.end(ok)
    }

    fn rule_decl(&mut self) -> Result<(), Refusal> {
        self.begin(RULE_DECL)?;
        self.attempt(Self::rule_mods)?;
        let mut ok = self.expect(Kind::RuleKw, WANT_RULE)? && self.expect(Kind::Ident, WANT_NAME)?;
        if ok && self.kind_ahead() == Some(Kind::Colon) {
            self.rule_tags()?;
        }
        ok = ok && self.expect(Kind::LBrace, WANT_L_BRACE)?;
        if ok {
            if self.kind_ahead() == Some(Kind::MetaKw) {
                self.meta_blk()?;
            }
            if self.kind_ahead() == Some(Kind::StringsKw) {
                self.patterns_blk()?;
            }
            self.condition_blk()?;
            ok = self.expect(Kind::RBrace, WANT_R_BRACE)?;
        }
        self.end(ok)?;
        self.recover(ok, ITEM_STARTS, WANT_ITEM)
    }

    /// import "..", include ".."
    fn statement(&mut self, node: u16) -> Result<(), Refusal> {
        self.begin(node)?;
        self.take()?;
        let ok = self.expect(Kind::StringLit, WANT_STRING)?;
        if !self.end(ok)? {
            self.tell();
        }
        Ok(())
    }

    fn item(&mut self) -> Result<(), Refusal> {
        match self.kind_ahead() {
            None => Ok(()),
            Some(Kind::ImportKw) => self.statement(IMPORT_STMT),
            Some(Kind::IncludeKw) => self.statement(INCLUDE_STMT),
            Some(Kind::GlobalKw | Kind::PrivateKw | Kind::RuleKw) => self.rule_decl(),
            Some(_) => self.recover(true, ITEM_STARTS, WANT_ITEM),
        }
    }
}

/// What is printed.
#[derive(Clone, Copy, PartialEq)]
enum Show {
    Outline,
    Events,
    Switches,
}

/// The outline, which is made of the events alone.
struct Outline<'src, W> {
    src: &'src [u8],
    out: W,
    /// The nodes that are open, and the bytes of the outermost.
    nodes: Vec<u16>,
    item: Range<usize>,
    /// A line was begun for it.
    line: bool,
    tags: usize,
    patterns: usize,
    hex_patterns: usize,
    // of the whole file
    rules: usize,
    imports: usize,
    includes: usize,
    errors: usize,
}

impl<'src, W: Write> Outline<'src, W> {
    fn new(src: &'src [u8], out: W) -> Self {
        let (nodes, item, line) = (Vec::new(), 0..0, false);
        Outline { src, out, nodes, item, line, tags: 0, patterns: 0, hex_patterns: 0, rules: 0, imports: 0, includes: 0, errors: 0 }
    }

    /// Writes a word of the source behind a text. A byte that is no visible ASCII is written as \x and two digits.
    fn word(&mut self, before: &str, word: Range<usize>) -> io::Result<()> {
        if !self.line {
            write!(self.out, "{}..{}", self.item.start, self.item.end)?;
            self.line = true;
        }
        write!(self.out, "{before}")?;
        for &byte in &self.src[word] {
            match byte {
                b' '..=b'~' => self.out.write_all(&[byte])?,
                _ => write!(self.out, "\\x{byte:02x}")?,
            }
        }
        Ok(())
    }

    /// A token that the outline shows: modifiers, name and tags of a rule, what is imported or included. A rule that broke off is an ERROR.
    fn token(&mut self, kind: Kind, span: Range<usize>) -> io::Result<()> {
        let of_rule = matches!(self.nodes[..], [RULE_DECL | ERROR] | [_, RULE_MODS]);
        match (kind, self.nodes.last()) {
            (Kind::RuleKw | Kind::GlobalKw | Kind::PrivateKw, _) if of_rule => {
                self.rules += usize::from(kind == Kind::RuleKw);
                self.word(" ", span)
            }
            (Kind::Ident, _) if of_rule && self.line => self.word(" ", span),
            (Kind::Ident, Some(&RULE_TAGS)) => {
                self.tags += 1;
                self.word(if self.tags == 1 { ": " } else { " " }, span)
            }
            (Kind::StringLit, Some(&IMPORT_STMT)) => {
                self.imports += 1;
                self.word(" import ", span)
            }
            (Kind::StringLit, Some(&INCLUDE_STMT)) => {
                self.includes += 1;
                self.word(" include ", span)
            }
            _ => Ok(()),
        }
    }

    fn show(&mut self, event: Event) -> io::Result<()> {
        match event {
            Event::Begin { kind, span } => {
                if self.nodes.is_empty() {
                    (self.item, self.line) = (span, false);
                    (self.tags, self.patterns, self.hex_patterns) = (0, 0, 0);
                }
                self.nodes.push(kind);
                self.patterns += usize::from(kind == PATTERN_DEF);
                self.hex_patterns += usize::from(kind == HEX_PATTERN);
            }
            Event::End { kind, .. } => {
                self.nodes.pop();
                if self.nodes.is_empty() && self.line {
                    if kind == RULE_DECL || kind == ERROR {
                        let broken = if kind == ERROR { ", broken" } else { "" };
                        write!(self.out, "; strings {}, hex {}{broken}", self.patterns, self.hex_patterns)?;
                    }
                    writeln!(self.out)?;
                }
            }
            Event::Token { kind, span } => {
                if let Some(kind) = Kind::from_number(kind) {
                    self.token(kind, span)?;
                }
            }
            Event::Error { message, span } => {
                writeln!(self.out, "{}..{} error: expecting {}", span.start, span.end, message_text(message))?;
            }
        }
        Ok(())
    }

    /// Writes an event as it is.
    fn show_event(&mut self, event: Event) -> io::Result<()> {
        let Range { start, end } = event.span();
        match event {
            Event::Begin { kind, .. } => writeln!(self.out, "begin {} {start} {end}", node_name(kind)),
            Event::End { kind, .. } => writeln!(self.out, "end {} {start} {end}", node_name(kind)),
            Event::Token { kind, .. } => writeln!(self.out, "token {kind} {start} {end}"),
            Event::Error { message, .. } => writeln!(self.out, "error {start} {end} expecting {}", message_text(message)),
        }
    }

    /// Pushes the errors of an item behind it, and takes all events out of the stream.
    fn hand_on(&mut self, parser: &mut Parser<'_>, show: Show) -> Result<(), Failure> {
        self.errors += parser.errors.len();
        for Miss { message, span } in parser.errors.drain(..) {
            parser.events.push_error(message, span)?;
        }
        while let Some(event) = parser.events.pop()? {
            match show {
                Show::Outline => self.show(event)?,
                Show::Events => self.show_event(event)?,
                Show::Switches => {}
            }
        }
        Ok(())
    }
}

/// Why the program breaks off.
enum Failure {
    Refused(Refusal),
    Output(io::Error),
}

impl From<Refusal> for Failure {
    fn from(refusal: Refusal) -> Self {
        Failure::Refused(refusal)
    }
}

impl From<io::Error> for Failure {
    fn from(error: io::Error) -> Self {
        Failure::Output(error)
    }
}

/// Reads a source item by item, and answers how many errors it has. Each item takes a token at least, so this ends.
fn read_source(src: &[u8], show: Show) -> Result<usize, Failure> {
    let mut parser = Parser::new(src)?;
    let mut outline = Outline::new(src, BufWriter::new(io::stdout().lock()));
    while parser.tokens.has_more() {
        parser.take_trivia()?;
        parser.item()?;
        outline.hand_on(&mut parser, show)?;
    }
    let Outline { out, rules, imports, includes, errors, .. } = &mut outline;
    match show {
        Show::Outline => writeln!(out, "rules {rules}, imports {imports}, includes {includes}, errors {errors}")?,
        Show::Events => {}
        Show::Switches => {
            for (mode, fetched, place) in &parser.switches {
                writeln!(out, "{} {fetched} {place}", if *mode == Mode::HexJump { "jump" } else { "pattern" })?;
            }
        }
    }
    out.flush()?;
    Ok(*errors)
}

/// Reads a file, or standard input, of more than 65,535 bytes the first 65,536.
fn read_file(name: Option<&OsStr>) -> io::Result<Vec<u8>> {
    let mut src = Vec::new();
    let limit = SOURCE_LIMIT as u64 + 1;
    match name {
        Some(name) => std::fs::File::open(name)?.take(limit).read_to_end(&mut src)?,
        None => io::stdin().lock().take(limit).read_to_end(&mut src)?,
    };
    Ok(src)
}

fn main() -> ExitCode {
    let mut words: Vec<OsString> = std::env::args_os().skip(1).collect();
    let show = match words.first().and_then(|word| word.to_str()) {
        Some("--events") => Show::Events,
        Some("--switches") => Show::Switches,
        _ => Show::Outline,
    };
    if show != Show::Outline {
        words.remove(0);
    }
    if words.len() > 1 || words.iter().any(|word| word.as_encoded_bytes().starts_with(b"-")) {
        eprintln!("usage: outline [--events | --switches] [FILE]");
        return ExitCode::from(2);
    }
    let name = words.first().map_or("standard input".into(), |name| name.to_string_lossy());
    let Ok(src) = read_file(words.first().map(OsString::as_os_str)) else {
        eprintln!("outline: {name} cannot be read");
        return ExitCode::from(1);
    };
    match read_source(&src, show) {
        Ok(0) => ExitCode::SUCCESS,
        Ok(_) => ExitCode::from(1),
        Err(Failure::Refused(Refusal::SourceTooLong)) => {
            eprintln!("outline: {name} has more than 65535 bytes");
            ExitCode::from(1)
        }
        Err(Failure::Refused(refusal)) => {
            eprintln!("outline: a call was refused by {}", refusal.number());
            ExitCode::from(1)
        }
        Err(Failure::Output(error)) => {
            eprintln!("outline: {error}");
            ExitCode::from(1)
        }
    }
}
