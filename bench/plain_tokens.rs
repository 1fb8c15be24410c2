// The plain program that the proved one is compared with: a lexer as one writes it by hand, over a
// text of bytes with a place in it. It gives each token's kind, place and bytes in the text, and
// knows escapes and doubled quote signs only as far as they end no text.
use std::io::Read;
use std::time::Instant;

#[derive(Clone, Copy, PartialEq)]
enum Kind {
    Word,
    Quoted,
    Number,
    String,
    Sign,
    Broken,
    End,
}

struct Token<'a> {
    kind: Kind,
    place: usize,
    bytes: &'a [u8],
}

struct Lexer<'a> {
    text: &'a [u8],
    at: usize,
}

impl<'a> Lexer<'a> {
    fn peek(&self, ahead: usize) -> Option<u8> {
        self.text.get(self.at + ahead).copied()
    }

    fn skip_while(&mut self, test: impl Fn(u8) -> bool) {
        while let Some(b) = self.peek(0) {
            if !test(b) {
                break;
            }
            self.at += 1;
        }
    }

    // whether what stands between tokens has its end
    fn skip_gap(&mut self) -> bool {
        loop {
            match self.peek(0) {
                Some(b' ' | b'\t' | b'\r' | b'\n') => self.at += 1,
                Some(b'-') if self.peek(1) == Some(b'-') => self.skip_while(|b| b != b'\n'),
                Some(b'/') if self.peek(1) == Some(b'*') => {
                    let from = self.at + 2;
                    match self.text[from..].windows(2).position(|two| two == b"*/") {
                        Some(end) => self.at = from + end + 2,
                        None => return false,
                    }
                }
                _ => return true,
            }
        }
    }

    fn number(&mut self) {
        self.at += 1;
        self.skip_while(|b| b.is_ascii_digit());
        if self.peek(0) == Some(b'.') && self.peek(1).is_some_and(|b| b.is_ascii_digit()) {
            self.at += 1;
            self.skip_while(|b| b.is_ascii_digit());
        }
    }

    fn quoted(&mut self, quote: u8) -> bool {
        self.at += 1;
        while let Some(b) = self.peek(0) {
            self.at += 1;
            if b == b'\\' {
                self.at += 1;
            } else if b == quote {
                if self.peek(0) != Some(quote) {
                    return true;
                }
                self.at += 1;
            }
        }
        false
    }

    fn next(&mut self) -> Token<'a> {
        let closed = self.skip_gap();
        let place = self.at;
        let kind = match self.peek(0) {
            _ if !closed => Kind::Broken,
            None => Kind::End,
            Some(b'a'..=b'z' | b'A'..=b'Z' | b'_') => {
                self.skip_while(|b| b.is_ascii_alphanumeric() || b == b'_');
                Kind::Word
            }
            Some(q @ (b'`' | b'"')) => if self.quoted(q) { Kind::Quoted } else { Kind::Broken },
            Some(b'\'') => if self.quoted(b'\'') { Kind::String } else { Kind::Broken },
            Some(b'0'..=b'9') => {
                self.number();
                Kind::Number
            }
            Some(b'+' | b'-') if self.peek(1).is_some_and(|b| b.is_ascii_digit()) => {
                self.number();
                Kind::Number
            }
            Some(b'(' | b')' | b',' | b';' | b'.' | b'=') => {
                self.at += 1;
                Kind::Sign
            }
            Some(_) => Kind::Broken,
        };
        let end = self.at.min(self.text.len());
        Token { kind, place, bytes: &self.text[place..end] }
    }
}

#[derive(Default)]
struct Figures {
    words: u32,
    numbers: u32,
    strings: u32,
    signs: u32,
    places: u64,
}

fn read(text: &[u8]) -> Figures {
    let mut figures = Figures::default();
    let mut lexer = Lexer { text, at: 0 };
    loop {
        let token = lexer.next();
        std::hint::black_box(token.bytes);
        figures.places = figures.places.wrapping_add(token.place as u64);
        match token.kind {
            Kind::Word | Kind::Quoted => figures.words += 1,
            Kind::Number => figures.numbers += 1,
            Kind::String => figures.strings += 1,
            Kind::Sign => figures.signs += 1,
            Kind::Broken | Kind::End => return figures,
        }
    }
}

fn main() {
    let rounds: u32 = std::env::args().nth(1).and_then(|number| number.parse().ok()).unwrap_or(0);
    let mut text = Vec::new();
    std::io::stdin().read_to_end(&mut text).unwrap();
    let found = read(&text);
    println!(
        "words {} numbers {} strings {} signs {} places {}",
        found.words, found.numbers, found.strings, found.signs, found.places
    );
    let mut best = u128::MAX;
    for _ in 0..rounds {
        let start = Instant::now();
        let again = read(std::hint::black_box(&text));
        best = best.min(start.elapsed().as_micros());
        std::hint::black_box(again.places);
    }
    if rounds > 0 {
        println!("{best}");
    }
}
