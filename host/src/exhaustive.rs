//! Every text over a small alphabet of tokens.

pub struct Exhaustive {
    alphabet: Vec<&'static str>,
    separator: &'static str,
    tokens: Vec<usize>,
}

impl Exhaustive {
    /// Begins with the empty text, which has no token.
    pub fn new(alphabet: Vec<&'static str>, separator: &'static str) -> Self {
        Exhaustive { alphabet, separator, tokens: Vec::new() }
    }

    /// The next text, those of fewer tokens first.
    pub fn next(&mut self) -> Vec<u8> {
        self.next_tokens().join(self.separator).into_bytes()
    }

    /// The tokens of the next text.
    pub fn next_tokens(&mut self) -> Vec<&'static str> {
        let tokens = self.tokens.iter().map(|&token| self.alphabet[token]).collect();
        self.advance();
        tokens
    }

    fn advance(&mut self) {
        for token in &mut self.tokens {
            *token += 1;
            if *token < self.alphabet.len() {
                return;
            }
            *token = 0;
        }
        self.tokens.push(0);
    }

    /// The number of tokens up to which every text has been given.
    pub fn complete(&self) -> usize {
        self.tokens.len().saturating_sub(1)
    }
}
