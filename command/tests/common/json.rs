//! A reader of the JSON that the command prints: a list of objects whose values are whole numbers. It stops at anything else.

use std::iter::Peekable;
use std::str::Chars;

/// The objects, each with its names and numbers in the order in which they stand.
pub fn objects(text: &str) -> Vec<Vec<(String, i64)>> {
    let mut reader = Reader { rest: text.chars().peekable() };
    let objects = reader.list('[', ']', Reader::object);
    reader.space();
    assert_eq!(reader.rest.next(), None, "something after the list: {text}");
    objects
}

struct Reader<'a> {
    rest: Peekable<Chars<'a>>,
}

impl Reader<'_> {
    fn space(&mut self) {
        while self.rest.next_if(|c| " \t\r\n".contains(*c)).is_some() {}
    }

    fn take(&mut self, wanted: char) {
        self.space();
        assert_eq!(self.rest.next(), Some(wanted));
    }

    fn takes(&mut self, wanted: char) -> bool {
        self.space();
        self.rest.next_if(|c| *c == wanted).is_some()
    }

    /// Elements parted by commas between two brackets.
    fn list<T>(&mut self, open: char, close: char, element: fn(&mut Self) -> T) -> Vec<T> {
        self.take(open);
        let mut elements = Vec::new();
        if self.takes(close) {
            return elements;
        }
        loop {
            elements.push(element(self));
            if self.takes(close) {
                return elements;
            }
            self.take(',');
        }
    }

    fn object(&mut self) -> Vec<(String, i64)> {
        self.list('{', '}', |reader| {
            let name = reader.name();
            reader.take(':');
            (name, reader.whole())
        })
    }

    fn name(&mut self) -> String {
        self.take('"');
        let mut name = String::new();
        while let Some(c) = self.rest.next_if(|c| c.is_ascii_lowercase()) {
            name.push(c);
        }
        assert_eq!(self.rest.next(), Some('"'), "after the name {name}");
        name
    }

    /// A whole number as JSON writes it: digits, no zero before another digit, perhaps a minus.
    fn whole(&mut self) -> i64 {
        self.space();
        let mut digits = String::new();
        while let Some(c) = self.rest.next_if(|c| !" \t\r\n,}]".contains(*c)) {
            digits.push(c);
        }
        let number: i64 = digits.parse().unwrap_or_else(|_| panic!("{digits} is no whole number"));
        assert_eq!(number.to_string(), digits);
        number
    }
}
