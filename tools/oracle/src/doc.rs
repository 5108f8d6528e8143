//! A document as a stream: texts, breaks, and the beginnings and ends of groups.

#[derive(Clone, Copy, PartialEq, Eq, Debug)]
pub enum Mark {
    Absent,
    Comma,
    OpenBrace,
    CloseBrace,
}

impl Mark {
    pub fn text(self) -> &'static str {
        match self {
            Mark::Absent => "",
            Mark::Comma => ",",
            Mark::OpenBrace => "{",
            Mark::CloseBrace => "}",
        }
    }
}

#[derive(Clone, Copy, PartialEq, Eq, Debug)]
pub struct Break {
    pub offset: i8,
    pub blank: u16,
    pub before: Mark,
    pub after: Mark,
    pub instead: Mark,
    pub never: bool,
}

impl Break {
    pub const fn new(offset: i8, blank: u16) -> Break {
        Break { offset, blank, before: Mark::Absent, after: Mark::Absent, instead: Mark::Absent, never: false }
    }

    pub fn width(&self) -> i64 {
        self.blank as i64 + self.instead.text().len() as i64
    }

    pub fn hard(&self) -> bool {
        self.blank == 65535 && !self.never
    }
}

#[derive(Clone, Copy, PartialEq, Eq, Debug)]
pub enum Tok<'t> {
    Text(&'t str),
    Break(Break),
    Begin { consistent: bool, offset: i8 },
    End,
}
