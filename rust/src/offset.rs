//! The byte at which a malformed line goes wrong (the offset of 2 and 5): an automaton over its bytes.
//! Written from request [8] of document 02, and document 01, Envelope lines and Header lines, for what is well-formed.
//!
//! "the first byte at which [..] the line, its CRLF with it, stops being a beginning of any well-formed line at that
//! number. If no byte does that, it is the line's end."

/// "at most 998 bytes", "1 to 998 bytes" before the CRLF
pub const LINE: usize = 998;
/// "a name of 1 to 76 bytes"
const NAME: usize = 76;

/// Where a line stops being a beginning.
#[derive(Clone, Copy, PartialEq, Eq, Debug)]
pub struct Stop {
    /// From the start of the line.
    pub at: usize,
    pub reason: Reason,
    /// What the bytes before it had come to.
    pub state: &'static str,
}

#[derive(Clone, Copy, PartialEq, Eq, PartialOrd, Ord, Debug)]
pub enum Reason {
    /// No well-formed line goes on with this byte.
    Byte,
    /// Nor with this one, inside a character.
    Character,
    /// What must still come after this byte does not fit.
    Limit,
    /// A byte other than LF after a CR.
    AfterCr,
    /// No byte is wrong, but the data end.
    End,
}

/// A line as far as it has been read: its bytes are a beginning of a well-formed line of some length.
trait Beginning {
    /// Reads one more byte; false where no well-formed line goes on with it. No CR goes on with any.
    fn read(&mut self, b: u8) -> bool;
    /// The least number of bytes that must still come before the CRLF.
    fn need(&self) -> usize;
    fn inside_character(&self) -> bool;
    fn state(&self) -> &'static str;
}

/// The stop of the line at the front of the bytes; none for a well-formed one, whatever follows its CRLF.
/// [8.7]: "The limit looks ahead."
fn stop(mut line: impl Beginning, bytes: &[u8], limit: usize) -> Option<Stop> {
    for (at, &b) in bytes.iter().enumerate() {
        let state = line.state();
        // [8.4]: "A CR is good where the line may end; then the byte that is not LF is the one."
        if b == b'\r' && line.need() == 0 {
            return match bytes.get(at + 1) {
                Some(b'\n') => None,
                Some(_) => Some(Stop { at: at + 1, reason: Reason::AfterCr, state }),
                None => Some(Stop { at: at + 1, reason: Reason::End, state }),
            };
        }
        let inside = line.inside_character();
        if !line.read(b) {
            let reason = if inside { Reason::Character } else { Reason::Byte };
            return Some(Stop { at, reason, state });
        }
        if at + 1 + line.need() > limit {
            return Some(Stop { at, reason: Reason::Limit, state });
        }
    }
    Some(Stop { at: bytes.len(), reason: Reason::End, state: line.state() })
}

/// [8.1]: "MAIL at 0, RCPT at 1 to 100, nothing at 101".
pub fn envelope_line(bytes: &[u8], number: usize, limit: usize) -> Option<Stop> {
    if number > 100 {
        return Some(Stop { at: 0, reason: Reason::Byte, state: "line 101" });
    }
    stop(EnvelopeLine::new(number == 0), bytes, limit)
}

/// [8.1]: "no continuation at 0 in a header".
pub fn header_line(bytes: &[u8], number: usize, limit: usize) -> Option<Stop> {
    stop(HeaderLine { first: number == 0, place: HeaderPlace::Start, character: None }, bytes, limit)
}

/// A character past ASCII of which some bytes have been read.
/// [8.11]: "the first byte that no character can have there (RFC 3629, section 4)".
#[derive(Clone, Copy)]
struct Character {
    left: usize,
    /// What the next byte may be.
    least: u8,
    most: u8,
}

impl Character {
    fn begin(first: u8) -> Option<Character> {
        let (left, least, most) = match first {
            0xC2..=0xDF => (1, 0x80, 0xBF),
            0xE0 => (2, 0xA0, 0xBF),
            0xE1..=0xEC | 0xEE..=0xEF => (2, 0x80, 0xBF),
            0xED => (2, 0x80, 0x9F),
            0xF0 => (3, 0x90, 0xBF),
            0xF1..=0xF3 => (3, 0x80, 0xBF),
            0xF4 => (3, 0x80, 0x8F),
            _ => return None,
        };
        Some(Character { left, least, most })
    }

    /// The rest of the character after one more byte, none where it is whole; an error where the byte is wrong.
    fn read(self, b: u8) -> Result<Option<Character>, ()> {
        if b < self.least || b > self.most {
            return Err(());
        }
        let rest = Character { left: self.left - 1, least: 0x80, most: 0xBF };
        Ok(if rest.left > 0 { Some(rest) } else { None })
    }
}

fn left(character: Option<Character>) -> usize {
    character.map_or(0, |character| character.left)
}

/// A fixed word in any case, as far as it has been spelled.
#[derive(Clone, Copy)]
struct Spelled {
    word: &'static [u8],
    /// None once another byte has come.
    len: Option<usize>,
}

impl Spelled {
    fn new(word: &'static [u8]) -> Spelled {
        Spelled { word, len: Some(0) }
    }

    fn read(&mut self, b: u8) {
        self.len = match self.len {
            Some(len) if len < self.word.len() && self.word[len].eq_ignore_ascii_case(&b) => Some(len + 1),
            _ => None,
        };
    }

    /// How many of its bytes must still come.
    fn left(&self) -> Option<usize> {
        self.len.map(|len| self.word.len() - len)
    }

    fn is_whole(&self) -> bool {
        self.left() == Some(0)
    }
}

/// How far a line of an envelope has come.
#[derive(Clone, Copy, PartialEq, Eq)]
enum Place {
    /// In `MAIL FROM:<` or `RCPT TO:<`.
    Verb,
    /// Behind `<`.
    Path,
    LocalAtom,
    LocalDot,
    Quoted,
    Backslash,
    /// Behind the second quote.
    QuotedEnd,
    At,
    DomainAtom,
    DomainDot,
    Literal,
    /// Behind `]`.
    LiteralEnd,
    /// Behind `>`.
    PathEnd,
    Space,
    Keyword,
    Equals,
    Value,
}

struct EnvelopeLine {
    mail: bool,
    place: Place,
    character: Option<Character>,
    verb: Spelled,
    postmaster: Spelled,
    alt_address: Spelled,
    orcpt: Spelled,
    /// An ALT-ADDRESS with its `=` has come.
    has_alternative: bool,
}

impl EnvelopeLine {
    fn new(mail: bool) -> EnvelopeLine {
        EnvelopeLine {
            mail,
            place: Place::Verb,
            character: None,
            verb: Spelled::new(if mail { b"MAIL FROM:<" } else { b"RCPT TO:<" }),
            postmaster: Spelled::new(b"Postmaster"),
            alt_address: Spelled::new(b"ALT-ADDRESS"),
            orcpt: Spelled::new(b"ORCPT"),
            has_alternative: false,
        }
    }

    /// The place behind an ASCII byte.
    fn next(&self, b: u8) -> Option<Place> {
        let next = match (self.place, b) {
            // Not reached: the verb is read by its spelling.
            (Place::Verb, _) => return None,
            // "MAIL may have an empty one"
            (Place::Path, b'>') if self.mail => Place::PathEnd,
            (Place::Path, b'"') => Place::Quoted,
            (Place::Path | Place::LocalDot | Place::LocalAtom, _) if is_atext(b) => Place::LocalAtom,
            (Place::LocalAtom, b'.') => Place::LocalDot,
            // "RCPT may have the bare word Postmaster in any case"
            (Place::LocalAtom, b'>') if !self.mail && self.postmaster.is_whole() => Place::PathEnd,
            // "Quoted strings hold bytes 32 to 126 and non-ASCII characters, perhaps none, a backslash escaping one
            // byte 32 to 126."
            (Place::Quoted, b'"') => Place::QuotedEnd,
            (Place::Quoted, b'\\') => Place::Backslash,
            (Place::Quoted | Place::Backslash, 32..=126) => Place::Quoted,
            (Place::LocalAtom | Place::QuotedEnd, b'@') => Place::At,
            (Place::At, b'[') => Place::Literal,
            (Place::At | Place::DomainDot | Place::DomainAtom, _) if is_atext(b) => Place::DomainAtom,
            (Place::DomainAtom, b'.') => Place::DomainDot,
            // "`[` bytes 33 to 90 or 94 to 126, perhaps none, `]`"
            (Place::Literal, 33..=90 | 94..=126) => Place::Literal,
            (Place::Literal, b']') => Place::LiteralEnd,
            (Place::DomainAtom | Place::LiteralEnd, b'>') => Place::PathEnd,
            // "then parameters, each after one space"
            (Place::PathEnd | Place::Value, b' ') => Place::Space,
            // "a keyword (letters, digits, hyphens, first not a hyphen)"
            (Place::Space | Place::Keyword, b'0'..=b'9' | b'A'..=b'Z' | b'a'..=b'z') => Place::Keyword,
            (Place::Keyword, b'-') => Place::Keyword,
            // "a second ALT-ADDRESS, an ALT-ADDRESS without a value [..] are malformed". [8.6]: it may still become
            // a longer keyword.
            (Place::Keyword, b' ') if !self.alt_address.is_whole() => Place::Space,
            (Place::Keyword, b'=') if !(self.alt_address.is_whole() && self.has_alternative) => Place::Equals,
            // "a value of one or more bytes 33 to 126 other than `=`"
            (Place::Equals | Place::Value, b'=') => return None,
            (Place::Equals | Place::Value, 33..=126) => Place::Value,
            _ => return None,
        };
        Some(next)
    }

    /// The place of a character past ASCII. "Atoms are RFC 5322 atext or non-ASCII characters." "Only ORCPT may also
    /// hold non-ASCII in its value."
    fn next_past_ascii(&self) -> Option<Place> {
        match self.place {
            Place::Path | Place::LocalAtom | Place::LocalDot => Some(Place::LocalAtom),
            Place::Quoted => Some(Place::Quoted),
            Place::At | Place::DomainAtom | Place::DomainDot => Some(Place::DomainAtom),
            Place::Equals | Place::Value if self.orcpt.is_whole() => Some(Place::Value),
            _ => None,
        }
    }

    fn read_verb(&mut self, b: u8) -> bool {
        self.verb.read(b);
        if self.verb.is_whole() {
            self.place = Place::Path;
        }
        self.verb.len.is_some()
    }
}

/// "RFC 5322 atext"
fn is_atext(b: u8) -> bool {
    b.is_ascii_alphanumeric() || b"!#$%&'*+-/=?^_`{|}~".contains(&b)
}

impl Beginning for EnvelopeLine {
    fn read(&mut self, b: u8) -> bool {
        if self.place == Place::Verb {
            return self.read_verb(b);
        }
        if let Some(character) = self.character {
            return match character.read(b) {
                Ok(rest) => {
                    self.character = rest;
                    true
                }
                Err(()) => false,
            };
        }
        let next = if b < 128 {
            self.next(b)
        } else {
            self.character = Character::begin(b);
            self.next_past_ascii().filter(|_| self.character.is_some())
        };
        let Some(next) = next else { return false };
        match next {
            Place::LocalAtom | Place::LocalDot => self.postmaster.read(b),
            Place::Space => {
                self.alt_address = Spelled::new(b"ALT-ADDRESS");
                self.orcpt = Spelled::new(b"ORCPT");
            }
            Place::Keyword => {
                self.alt_address.read(b);
                self.orcpt.read(b);
            }
            Place::Equals => self.has_alternative |= self.alt_address.is_whole(),
            _ => {}
        }
        self.place = next;
        true
    }

    fn need(&self) -> usize {
        // The shortest path with its `>`: none, or `x@x`.
        let path = if self.mail { 1 } else { 4 };
        let ascii = match self.place {
            Place::Verb => self.verb.left().unwrap_or(0) + path,
            Place::Path => path,
            // `@x>`, or what is left of Postmaster.
            Place::LocalAtom if !self.mail => self.postmaster.left().map_or(3, |left| 3.min(left + 1)),
            Place::LocalAtom | Place::QuotedEnd => 3,
            Place::LocalDot | Place::Quoted => 4,
            Place::Backslash => 5,
            Place::At | Place::DomainDot | Place::Literal => 2,
            Place::DomainAtom | Place::LiteralEnd => 1,
            Place::Space | Place::Equals => 1,
            Place::Keyword if self.alt_address.is_whole() => 1,
            Place::PathEnd | Place::Keyword | Place::Value => 0,
        };
        left(self.character) + ascii
    }

    fn inside_character(&self) -> bool {
        self.character.is_some()
    }

    fn state(&self) -> &'static str {
        match self.place {
            Place::Verb => "verb",
            Place::Path => "start of the path",
            Place::LocalAtom => "local part",
            Place::LocalDot => "dot of the local part",
            Place::Quoted => "quoted string",
            Place::Backslash => "backslash",
            Place::QuotedEnd => "end of a quoted string",
            Place::At => "@",
            Place::DomainAtom => "domain",
            Place::DomainDot => "dot of the domain",
            Place::Literal => "domain literal",
            Place::LiteralEnd => "end of a domain literal",
            Place::PathEnd => "end of the path",
            Place::Space => "space",
            Place::Keyword if self.alt_address.is_whole() && self.has_alternative => "second ALT-ADDRESS",
            Place::Keyword if self.alt_address.is_whole() => "first ALT-ADDRESS",
            Place::Keyword => "keyword",
            Place::Equals => "=",
            Place::Value if self.orcpt.is_whole() => "ORCPT value",
            Place::Value => "value",
        }
    }
}

#[derive(Clone, Copy)]
enum HeaderPlace {
    Start,
    /// In a name of so many bytes.
    Name(usize),
    /// In a value or a continuation.
    Text,
}

struct HeaderLine {
    first: bool,
    place: HeaderPlace,
    character: Option<Character>,
}

impl Beginning for HeaderLine {
    fn read(&mut self, b: u8) -> bool {
        if let Some(character) = self.character {
            return match character.read(b) {
                Ok(rest) => {
                    self.character = rest;
                    true
                }
                Err(()) => false,
            };
        }
        let next = match (self.place, b) {
            // "It is a continuation (starts with space or TAB; not the first line) or a name of 1 to 76 bytes 33 to
            // 126 without colon, then a colon."
            (HeaderPlace::Start, b' ' | b'\t') if !self.first => HeaderPlace::Text,
            (HeaderPlace::Start, b':') => return false,
            (HeaderPlace::Name(_), b':') => HeaderPlace::Text,
            (HeaderPlace::Start, 33..=126) => HeaderPlace::Name(1),
            (HeaderPlace::Name(len), 33..=126) if len < NAME => HeaderPlace::Name(len + 1),
            // "holds no NUL, lone CR or lone LF, and is UTF-8"
            (HeaderPlace::Text, 0 | b'\r' | b'\n') => return false,
            (HeaderPlace::Text, 0..=127) => HeaderPlace::Text,
            (HeaderPlace::Text, 128..) => {
                self.character = Character::begin(b);
                return self.character.is_some();
            }
            _ => return false,
        };
        self.place = next;
        true
    }

    fn need(&self) -> usize {
        match self.place {
            // A name of one byte and its colon, or a continuation of one byte.
            HeaderPlace::Start if self.first => 2,
            HeaderPlace::Start => 1,
            HeaderPlace::Name(_) => 1,
            HeaderPlace::Text => left(self.character),
        }
    }

    fn inside_character(&self) -> bool {
        self.character.is_some()
    }

    fn state(&self) -> &'static str {
        match self.place {
            HeaderPlace::Start if self.first => "start of the first line",
            HeaderPlace::Start => "start of a line",
            HeaderPlace::Name(NAME) => "name of 76",
            HeaderPlace::Name(_) => "name",
            HeaderPlace::Text => "text",
        }
    }
}
