//! Reading the program's text: lines, and what stands on one.
use crate::ids::{BlockId, FunctionId, FunctionName, IdentifierId, InstructionId, Order};
use crate::words::Word;
use std::error::Error;
use std::fmt;
use std::str::FromStr;

/// A text isn't one that the program writes: the number of the first line that isn't, from 1.
#[derive(Clone, Copy, Debug, PartialEq, Eq)]
pub struct TextError {
    /// The number of the line, from 1.
    pub line: usize,
}

impl fmt::Display for TextError {
    fn fmt(&self, f: &mut fmt::Formatter<'_>) -> fmt::Result {
        write!(
            f,
            "line {} isn't one that jirrambeo writes there",
            self.line
        )
    }
}

impl Error for TextError {}

/// The rest of a line: words with one space between them.
#[derive(Clone, Copy)]
pub(crate) struct Line<'a> {
    rest: Option<&'a str>,
    number: usize,
}

impl<'a> Line<'a> {
    pub(crate) fn error(&self) -> TextError {
        TextError { line: self.number }
    }

    /// What is left of the line, where something is.
    pub(crate) fn rest(&self) -> Option<&'a str> {
        self.rest
    }

    /// The next word.
    pub(crate) fn word(&mut self) -> Result<&'a str, TextError> {
        let rest = self.rest.ok_or(self.error())?;
        let (word, rest) = match rest.split_once(' ') {
            Some((word, rest)) => (word, Some(rest)),
            None => (rest, None),
        };
        self.rest = rest;
        if word.is_empty() {
            Err(self.error())
        } else {
            Ok(word)
        }
    }

    /// The next word, which is to be this one.
    pub(crate) fn expect(&mut self, wanted: &str) -> Result<(), TextError> {
        if self.word()? == wanted {
            Ok(())
        } else {
            Err(self.error())
        }
    }

    /// The next word, which says one of these.
    pub(crate) fn one_of<T: Copy>(&mut self, words: &[(&str, T)]) -> Result<T, TextError> {
        let word = self.word()?;
        let (_, says) = words
            .iter()
            .find(|(name, _)| *name == word)
            .ok_or(self.error())?;
        Ok(*says)
    }

    /// The next word as a variant of an enum.
    pub(crate) fn named<T: Word>(&mut self) -> Result<T, TextError> {
        let word = self.word()?;
        T::from_word(word).ok_or(self.error())
    }

    /// The next word as a number in decimal.
    pub(crate) fn number<T: FromStr>(&mut self) -> Result<T, TextError> {
        let word = self.word()?;
        number_of(word).ok_or(self.error())
    }

    pub(crate) fn identifier(&mut self) -> Result<IdentifierId, TextError> {
        Ok(IdentifierId(self.number()?))
    }

    pub(crate) fn instruction(&mut self) -> Result<InstructionId, TextError> {
        Ok(InstructionId(self.number()?))
    }

    pub(crate) fn block(&mut self) -> Result<BlockId, TextError> {
        Ok(BlockId(self.number()?))
    }

    pub(crate) fn order(&mut self) -> Result<Order, TextError> {
        Ok(Order(self.number()?))
    }

    pub(crate) fn function(&mut self) -> Result<FunctionName, TextError> {
        let word = self.word()?;
        if word == "root" {
            return Ok(FunctionName::Root);
        }
        let number = number_of(word).ok_or(self.error())?;
        Ok(FunctionName::Nested(FunctionId(number)))
    }

    /// The identifiers to the end of the line.
    pub(crate) fn identifiers(&mut self) -> Result<Vec<IdentifierId>, TextError> {
        self.all(Line::identifier)
    }

    /// What is left of the line, by what reads one.
    pub(crate) fn all<T>(
        &mut self,
        mut read: impl FnMut(&mut Self) -> Result<T, TextError>,
    ) -> Result<Vec<T>, TextError> {
        let mut found = Vec::new();
        while self.rest.is_some() {
            found.push(read(self)?);
        }
        Ok(found)
    }

    /// A JSON text.
    pub(crate) fn text(&mut self) -> Result<String, TextError> {
        let rest = self.rest.ok_or(self.error())?;
        let (text, behind) = unquoted(rest).ok_or(self.error())?;
        self.rest = match behind {
            "" => None,
            _ => Some(behind.strip_prefix(' ').ok_or(self.error())?),
        };
        Ok(text)
    }

    /// A JSON text, or `-` for none.
    pub(crate) fn optional_text(&mut self) -> Result<Option<String>, TextError> {
        let mut ahead = *self;
        if ahead.word()? == "-" {
            *self = ahead;
            return Ok(None);
        }
        self.text().map(Some)
    }

    /// That nothing is left.
    pub(crate) fn end(self) -> Result<(), TextError> {
        match self.rest {
            None => Ok(()),
            Some(_) => Err(self.error()),
        }
    }
}

/// The number whose decimal text this is: digits alone, and no zero before others.
pub(crate) fn number_of<T: FromStr>(word: &str) -> Option<T> {
    let is_plain =
        word.bytes().all(|byte| byte.is_ascii_digit()) && (word == "0" || !word.starts_with('0'));
    if is_plain { word.parse().ok() } else { None }
}

/// The text that a JSON text at the front spells, and what stands behind it.
pub(crate) fn unquoted(json: &str) -> Option<(String, &str)> {
    let mut characters = json.strip_prefix('"')?.chars();
    let mut text = String::new();
    loop {
        match characters.next()? {
            '"' => return Some((text, characters.as_str())),
            '\\' => text.push(match characters.next()? {
                'b' => '\u{8}',
                'f' => '\u{c}',
                'n' => '\n',
                'r' => '\r',
                't' => '\t',
                'u' => {
                    let digits = characters.as_str().get(..4)?;
                    characters = characters.as_str()[4..].chars();
                    char::from_u32(u32::from_str_radix(digits, 16).ok()?)?
                }
                plain @ ('"' | '\\') => plain,
                _ => return None,
            }),
            plain => text.push(plain),
        }
    }
}

/// A text as a JSON text, as the program writes it.
pub(crate) struct Quoted<'a>(pub(crate) &'a str);

impl fmt::Display for Quoted<'_> {
    fn fmt(&self, f: &mut fmt::Formatter<'_>) -> fmt::Result {
        f.write_str("\"")?;
        for character in self.0.chars() {
            match character {
                '"' | '\\' => write!(f, "\\{character}")?,
                '\u{8}' => f.write_str("\\b")?,
                '\u{c}' => f.write_str("\\f")?,
                '\n' => f.write_str("\\n")?,
                '\r' => f.write_str("\\r")?,
                '\t' => f.write_str("\\t")?,
                '\0'..' ' => write!(f, "\\u{:04x}", character as u32)?,
                plain => write!(f, "{plain}")?,
            }
        }
        f.write_str("\"")
    }
}

/// A text as a JSON text, or `-` for none.
pub(crate) struct QuotedOrNone<'a>(pub(crate) Option<&'a str>);

impl fmt::Display for QuotedOrNone<'_> {
    fn fmt(&self, f: &mut fmt::Formatter<'_>) -> fmt::Result {
        match self.0 {
            None => f.write_str("-"),
            Some(text) => Quoted(text).fmt(f),
        }
    }
}

/// Values with one space before each.
pub(crate) struct Spaced<'a, T>(pub(crate) &'a [T]);

impl<T: fmt::Display> fmt::Display for Spaced<'_, T> {
    fn fmt(&self, f: &mut fmt::Formatter<'_>) -> fmt::Result {
        self.0.iter().try_for_each(|value| write!(f, " {value}"))
    }
}

/// The lines of a text, each of which ends with a newline.
pub(crate) struct Lines<'a> {
    rest: &'a str,
    number: usize,
}

impl<'a> Lines<'a> {
    pub(crate) fn new(text: &'a str) -> Lines<'a> {
        Lines {
            rest: text,
            number: 1,
        }
    }

    /// The next line, and what is behind it.
    fn peek(&self) -> Option<(Line<'a>, &'a str)> {
        let (line, behind) = self.rest.split_once('\n')?;
        Some((
            Line {
                rest: Some(line),
                number: self.number,
            },
            behind,
        ))
    }

    fn advance(&mut self, behind: &'a str) {
        self.rest = behind;
        self.number += 1;
    }

    /// The next line, whatever it is.
    pub(crate) fn next(&mut self) -> Result<Line<'a>, TextError> {
        let (line, behind) = self.peek().ok_or(TextError { line: self.number })?;
        self.advance(behind);
        Ok(line)
    }

    /// What stands behind the first word of the next line, where that is this word.
    pub(crate) fn take(&mut self, word: &str) -> Option<Line<'a>> {
        let (mut line, behind) = self.peek()?;
        if line.word().ok()? != word {
            return None;
        }
        self.advance(behind);
        Some(line)
    }

    /// The next line, whose first word is to be this one.
    pub(crate) fn need(&mut self, word: &str) -> Result<Line<'a>, TextError> {
        self.take(word).ok_or(TextError { line: self.number })
    }

    /// What stands behind the number at the front of the next line, where it begins with one.
    pub(crate) fn take_numbered(&mut self) -> Option<(u32, Line<'a>)> {
        let (mut line, behind) = self.peek()?;
        let number = number_of(line.word().ok()?)?;
        self.advance(behind);
        Some((number, line))
    }

    /// What the lines that begin with this word say, by what reads one.
    pub(crate) fn all<T>(
        &mut self,
        word: &str,
        mut read: impl FnMut(Line<'a>) -> Result<T, TextError>,
    ) -> Result<Vec<T>, TextError> {
        let mut found = Vec::new();
        while let Some(line) = self.take(word) {
            found.push(read(line)?);
        }
        Ok(found)
    }

    /// That no line is left.
    pub(crate) fn end(self) -> Result<(), TextError> {
        match self.rest {
            "" => Ok(()),
            _ => Err(TextError { line: self.number }),
        }
    }
}
