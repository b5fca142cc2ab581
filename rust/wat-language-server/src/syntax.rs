//! The significant tokens of a text and their groups in parentheses. Missing and surplus parentheses are tolerated.

use std::borrow::Cow;
use std::ops::Range;
use wat_lex::{Document, Token, TokenKind};

/// Keywords that begin a field, but no group inside a function.
const FIELDS_ONLY: [&str; 7] = ["func", "table", "memory", "global", "start", "elem", "data"];

/// The significant tokens of a text, without annotations, and the groups that they form.
pub struct Syntax<'a> {
    text: &'a str,
    tokens: Vec<Token>,
    /// For each `(` the index after the last token of its group; for any other token the index after it.
    ends: Vec<usize>,
    /// For each token the index of the innermost `(` whose group contains it. That of a `)` is the `(` that it closes, and that of a `(` the one
    /// outside it.
    parents: Vec<Option<usize>>,
}

/// The groups around a token.
#[derive(Default)]
struct OpenGroups {
    /// The `(` of each, the innermost last.
    groups: Vec<usize>,
    /// Positions in `groups` of those inside a `(module` directly.
    fields: Vec<usize>,
}

impl OpenGroups {
    fn push(&mut self, open: usize, is_module: bool) {
        self.groups.push(open);
        if is_module {
            self.fields.push(self.groups.len());
        }
    }

    fn pop(&mut self) -> Option<usize> {
        let open = self.groups.pop();
        let len = self.groups.len();
        self.fields.pop_if(|field| *field > len);
        open
    }

    /// Returns the `(` of the field around the next token.
    fn field(&self) -> Option<usize> {
        let position = self.fields.last().copied().unwrap_or(0);
        self.groups.get(position).copied()
    }

    /// Drops the groups of the field around the next token, and returns them.
    fn drop_field(&mut self) -> Vec<usize> {
        let position = self.fields.last().copied().unwrap_or(0);
        self.groups.split_off(position)
    }
}

impl<'a> Syntax<'a> {
    /// Groups the tokens of a document.
    #[must_use]
    pub fn new(document: &'a Document) -> Syntax<'a> {
        let text = document.text();
        let tokens = significant_tokens(document);
        let (ends, parents) = (
            (1..=tokens.len()).collect(),
            Vec::with_capacity(tokens.len()),
        );
        let mut syntax = Syntax {
            text,
            tokens,
            ends,
            parents,
        };
        syntax.group();
        syntax
    }

    /// Finds the end and the parent of each token.
    fn group(&mut self) {
        let mut open = OpenGroups::default();
        for at in 0..self.tokens.len() {
            if self.is_open(at) && self.closes_field(at, &open) {
                self.close(open.drop_field(), at);
            }
            self.parents.push(open.groups.last().copied());
            if self.is_open(at) {
                open.push(at, self.word(at + 1) == Some("module"));
            } else if let Some(closed) = self.is_close(at).then(|| open.pop()).flatten() {
                self.ends[closed] = at + 1;
            }
        }
        self.close(open.groups, self.tokens.len());
    }

    /// Returns `true` if the group at `at` must be a field, because the field before it, with a missing `)`, cannot contain it.
    fn closes_field(&self, at: usize, open: &OpenGroups) -> bool {
        let field = open.field().and_then(|open| self.word(open + 1));
        let inner = match field {
            Some("func" | "global" | "start") => None,
            Some("table") => Some("elem"),
            Some("memory") => Some("data"),
            Some("elem") => Some("table"),
            Some("data") => Some("memory"),
            _ => return false,
        };
        self.must_be_field(at) && self.word(at + 1) != inner
    }

    /// Returns `true` if the group at `at` can be a field, but not a part of a function.
    fn must_be_field(&self, at: usize) -> bool {
        let Some(word) = self.word(at + 1) else {
            return false;
        };
        let is_name = |at: &usize| {
            self.token(*at)
                .is_some_and(|it| matches!(it.kind, TokenKind::Id | TokenKind::String))
        };
        let names = (at + 2..at + 4).take_while(is_name).count();
        let has_group = self.is_open(at + 2 + names);
        FIELDS_ONLY.contains(&word) || matches!(word, "type" | "import" | "export") && has_group
    }

    fn close(&mut self, groups: Vec<usize>, end: usize) {
        for group in groups {
            self.ends[group] = end;
        }
    }

    /// Returns the text.
    #[must_use]
    pub fn text(&self) -> &'a str {
        self.text
    }

    /// Returns the number of tokens.
    #[must_use]
    pub fn len(&self) -> usize {
        self.tokens.len()
    }

    /// Returns `true` if there is no significant token.
    #[must_use]
    pub fn is_empty(&self) -> bool {
        self.tokens.is_empty()
    }

    /// Returns the token at an index, or `None` if there are fewer tokens.
    #[must_use]
    pub fn token(&self, at: usize) -> Option<Token> {
        self.tokens.get(at).copied()
    }

    /// Returns the lexeme of a token, or an empty text if there are fewer tokens.
    #[must_use]
    pub fn source(&self, at: usize) -> &'a str {
        self.token(at).map_or("", |token| token.src(self.text))
    }

    /// Returns the index after the last token of the group at `at`, or after the token if it is not a `(`.
    #[must_use]
    pub fn end(&self, at: usize) -> usize {
        self.ends.get(at).copied().unwrap_or(self.tokens.len())
    }

    /// Returns the index of the `(` of the group that contains the token, or `None` outside all groups.
    #[must_use]
    pub fn parent(&self, at: usize) -> Option<usize> {
        self.parents.get(at).copied().flatten()
    }

    /// Returns the byte range of a nonempty range of tokens, or an empty range at the end of the text.
    #[must_use]
    pub fn bytes(&self, tokens: Range<usize>) -> Range<usize> {
        let last = tokens.end.max(tokens.start + 1) - 1;
        match (self.token(tokens.start), self.token(last)) {
            (Some(first), Some(last)) => first.offset..last.end(),
            _ => self.text.len()..self.text.len(),
        }
    }

    /// Returns the index of the first token that ends after a byte offset.
    #[must_use]
    pub fn first_after(&self, offset: usize) -> usize {
        self.tokens.partition_point(|token| token.end() <= offset)
    }

    /// Returns `true` if the token is a `(`.
    #[must_use]
    pub fn is_open(&self, at: usize) -> bool {
        self.token(at)
            .is_some_and(|it| it.kind == TokenKind::LParen)
    }

    /// Returns `true` if the token is a `)`.
    #[must_use]
    pub fn is_close(&self, at: usize) -> bool {
        self.token(at)
            .is_some_and(|it| it.kind == TokenKind::RParen)
    }

    /// Returns `true` if the token is an identifier or an integer.
    #[must_use]
    pub fn is_index(&self, at: usize) -> bool {
        let token = self.token(at);
        token.is_some_and(|it| matches!(it.kind, TokenKind::Id | TokenKind::Integer(_)))
    }

    /// Returns the keyword at an index, or `None` for any other token.
    #[must_use]
    pub fn word(&self, at: usize) -> Option<&'a str> {
        let token = self
            .token(at)
            .filter(|token| token.kind == TokenKind::Keyword);
        token.map(|token| token.src(self.text))
    }

    /// Returns the index of the keyword that contains a byte offset, or that ends at it.
    #[must_use]
    pub fn keyword_at(&self, offset: usize) -> Option<usize> {
        let after = self.first_after(offset);
        let mut tokens = [Some(after), after.checked_sub(1)].into_iter().flatten();
        tokens.find(|at| {
            let bytes = self.bytes(*at..at + 1);
            self.word(*at).is_some() && bytes.start <= offset && offset <= bytes.end
        })
    }

    /// Returns the keyword after the `(` of the group that contains the token, or `None` outside all groups.
    #[must_use]
    pub fn group_word(&self, at: usize) -> Option<&'a str> {
        self.parent(at).and_then(|open| self.word(open + 1))
    }

    /// Returns the name of the identifier at an index, or `None` for any other token.
    #[must_use]
    pub fn name(&self, at: usize) -> Option<Cow<'a, str>> {
        let token = self.token(at).filter(|token| token.kind == TokenKind::Id)?;
        token.id(self.text).ok()
    }

    /// Returns the value of an unsigned integer below 2^32, or `None` for any other token.
    #[must_use]
    pub fn integer(&self, at: usize) -> Option<u32> {
        let token = self.token(at)?;
        if !matches!(token.kind, TokenKind::Integer(_)) {
            return None;
        }
        let digits = token.src(self.text).replace('_', "");
        match digits.strip_prefix("0x") {
            Some(digits) => u32::from_str_radix(digits, 16).ok(),
            None => digits.parse().ok().filter(|_| !digits.starts_with('+')),
        }
    }

    /// Returns the parts of the group at `open` after its keyword: the index of each token, or of the `(` of each group.
    pub fn parts(&self, open: usize) -> impl Iterator<Item = usize> + '_ {
        let parts = std::iter::successors(Some(open + 2), |at| Some(self.end(*at)));
        let end = self.end(open);
        parts.take_while(move |at| *at < end && !self.is_close(*at))
    }

    /// Returns the parts of a group that are groups themselves.
    pub fn groups(&self, open: usize) -> impl Iterator<Item = usize> + '_ {
        self.parts(open).filter(|at| self.is_open(*at))
    }
}

/// Returns the tokens except whitespace, comments, and annotations with their groups.
fn significant_tokens(document: &Document) -> Vec<Token> {
    let mut tokens: Vec<Token> = Vec::new();
    // Number of unclosed parentheses of an annotation.
    let mut depth = 0_usize;
    for token in document.tokens().filter(|token| !token.kind.is_blank()) {
        match token.kind {
            TokenKind::LParen if depth > 0 => depth += 1,
            TokenKind::RParen if depth > 0 => depth -= 1,
            TokenKind::Annotation if depth == 0 => {
                let is_group =
                    |last: &mut Token| last.kind == TokenKind::LParen && last.end() == token.offset;
                depth = usize::from(tokens.pop_if(is_group).is_some());
            }
            _ if depth == 0 => tokens.push(token),
            _ => {}
        }
    }
    tokens
}
