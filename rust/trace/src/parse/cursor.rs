//! A way through the tokens of a statement, one after the other.

use crate::lex::{Sign, Token};
use crate::mistake::{quoted, Mistake, Place};
use crate::parse::values;

/// The tokens that are left.
pub struct Cursor<'t, 'a> {
    tokens: &'t [Token<'a>],
    end: Place,
}

impl<'t, 'a> Cursor<'t, 'a> {
    /// Over tokens of one statement, of which there is at least one.
    pub fn new(tokens: &'t [Token<'a>]) -> Cursor<'t, 'a> {
        let end = tokens.last().map(Token::end);
        Cursor {
            tokens,
            end: end.unwrap_or(Place { line: 1, column: 1 }),
        }
    }

    pub fn peek(&self) -> Option<Token<'a>> {
        self.tokens.first().copied()
    }

    /// The sign of the token after the next one.
    pub fn sign_behind(&self) -> Option<Sign> {
        self.tokens.get(1).map(|token| token.sign)
    }

    /// Where the next token stands, or would stand.
    pub fn place(&self) -> Place {
        self.peek().map_or(self.end, |token| token.place)
    }

    pub fn advance(&mut self) {
        self.tokens = self.tokens.get(1..).unwrap_or_default();
    }

    /// The mistake that the next token is.
    pub fn mistake(&self, expected: impl Into<String>) -> Mistake {
        let found = self.peek().map(|token| quoted(token.text));
        let found = found.unwrap_or_else(|| "the end of the line".to_owned());
        Mistake::new(self.place(), expected, found)
    }

    pub fn word(&mut self, expected: &str) -> Result<Token<'a>, Mistake> {
        let next = self.peek().filter(|token| token.sign == Sign::Word);
        let token = next.ok_or_else(|| self.mistake(expected))?;
        self.advance();
        Ok(token)
    }

    /// Takes a sign if it is next.
    pub fn takes_sign(&mut self, sign: Sign) -> bool {
        let is = self.peek().is_some_and(|token| token.sign == sign);
        if is {
            self.advance();
        }
        is
    }

    pub fn sign(&mut self, sign: Sign, expected: &str) -> Result<(), Mistake> {
        match self.takes_sign(sign) {
            true => Ok(()),
            false => Err(self.mistake(expected)),
        }
    }

    /// Is a keyword next? A word before `=` is a field, whatever it is called.
    pub fn is_at(&self, keyword: &str) -> bool {
        self.peek().is_some_and(|token| token.text == keyword)
            && self.sign_behind() != Some(Sign::Equals)
    }

    /// Takes a keyword if it is next.
    pub fn takes(&mut self, keyword: &str) -> bool {
        let is = self.is_at(keyword);
        if is {
            self.advance();
        }
        is
    }

    pub fn keyword(&mut self, keyword: &str) -> Result<(), Mistake> {
        match self.takes(keyword) {
            true => Ok(()),
            false => Err(self.mistake(format!("'{keyword}'"))),
        }
    }

    /// A number that fits.
    pub fn number<T: TryFrom<u128>>(&mut self, expected: &str) -> Result<T, Mistake> {
        let next = self.peek().and_then(|token| values::number(token.text));
        let number = next.and_then(|(number, _)| T::try_from(number).ok());
        let number = number.ok_or_else(|| self.mistake(expected))?;
        self.advance();
        Ok(number)
    }

    /// A new name.
    pub fn name(&mut self, of: &str) -> Result<Token<'a>, Mistake> {
        let expected =
            || format!("a name for the {of}: a letter, then letters, digits, '_' or '-'");
        let next = self.peek().filter(|token| values::is_name(token.text));
        let token = next.ok_or_else(|| self.mistake(expected()))?;
        self.advance();
        Ok(token)
    }

    pub fn end(&self, expected: &str) -> Result<(), Mistake> {
        match self.peek() {
            None => Ok(()),
            Some(_) => Err(self.mistake(expected)),
        }
    }
}
