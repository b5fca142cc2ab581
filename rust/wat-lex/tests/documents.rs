//! Edits of documents: after each edit, a document equals one that is created from the new text.

mod texts;

use std::iter;
use std::ops::Range;
use std::time::{Duration, Instant};
use texts::Random;
use wat_lex::{Change, Document, LexError, Lexer, LineIndex, Piece, Span, TokenKind};

/// Lexes a text and returns its pieces, each found by a separate call.
fn whole(lexer: &Lexer<'_>) -> Vec<Piece> {
    let mut at = 0;
    let next = || {
        if let Ok(token) = lexer.parse(&mut at) {
            token.map(Piece::Token)
        } else {
            let fault = lexer.fault_at(at).unwrap();
            at = fault.end();
            Some(Piece::Fault(fault))
        }
    };
    iter::from_fn(next).collect()
}

/// Describes a piece by its offset from the end of the text, its length, its kind and its error.
fn from_end(piece: Piece, text: &str) -> (usize, usize, Option<TokenKind>, Option<LexError>) {
    let kind = piece.token().map(|token| token.kind);
    let error = piece.fault().map(|fault| fault.error);
    (
        text.len() - piece.offset(),
        piece.range().len(),
        kind,
        error,
    )
}

/// A document with a copy of its text, to which the test applies the same edits.
struct Pair {
    document: Document,
    text: String,
    pieces: Vec<Piece>,
    /// Number of bytes that were lexed again, counted as the lengths of the new pieces.
    read: usize,
}

impl Pair {
    fn new(text: String, allow: bool) -> Pair {
        let mut lexer = Lexer::new(&text);
        lexer.allow_confusing_unicode(allow);
        Pair {
            document: Document::with_lexer(&lexer).unwrap(),
            pieces: whole(&lexer),
            text,
            read: 0,
        }
    }

    fn edit(&mut self, range: Range<usize>, with: &str) {
        let was = self.text.clone();
        self.text.replace_range(range.clone(), with);
        let change = self.document.replace(range, with).unwrap();
        let pieces = self.compare();
        self.compare_change(change, &was, &pieces);
        self.pieces = pieces;
    }

    /// Compares the document with the result of lexing the whole text, and returns the pieces.
    fn compare(&self) -> Vec<Piece> {
        let (document, text) = (&self.document, &self.text);
        assert_eq!(document.text(), text);
        let lexer = document.lexer();
        let pieces = whole(&lexer);
        assert!(document.pieces().eq(pieces.iter().copied()), "{text:?}");
        assert_eq!(document.piece_count(), pieces.len());
        let fault = document.faults().next();
        let error = lexer.iter(0).find_map(Result::err);
        assert_eq!(
            fault.map(|fault| (fault.span(), fault.error)),
            error.map(|error| (error.span(), *error.lex_error().unwrap()))
        );
        pieces
    }

    /// Checks that the pieces outside the reported change are the old ones.
    fn compare_change(&mut self, change: Change, text: &str, pieces: &[Piece]) {
        let Change {
            first,
            removed,
            added,
        } = change;
        assert_eq!(self.pieces[..first], pieces[..first]);
        let was = self.pieces[first + removed..].iter();
        let was = was.map(|piece| from_end(*piece, text));
        let is = pieces[first + added..].iter();
        let is = is.map(|piece| from_end(*piece, &self.text));
        assert!(was.eq(is), "{text:?} {:?}", self.text);
        let new = pieces[first..first + added].iter();
        self.read += new.map(|piece| piece.range().len()).sum::<usize>();
    }

    fn compare_lines(&self, random: &mut Random) {
        let (document, text) = (&self.document, &self.text);
        let index = LineIndex::new(text);
        for _ in 0..4 {
            let place = Span::from_offset(random.below(text.len() + 2));
            let (line, column) = index.linecol(place);
            assert_eq!(
                document.linecol(place),
                (line, column),
                "{text:?} {place:?}"
            );
            let utf16 = index.utf16_linecol(place);
            assert_eq!(document.utf16_linecol(place), utf16, "{text:?} {place:?}");
            let chars = index.char_linecol(place);
            assert_eq!(document.char_linecol(place), chars, "{text:?} {place:?}");
            let begun = text.char_indices().map(|(at, _)| at);
            let begun = begun.filter(|at| (place.offset() - column..place.offset()).contains(at));
            assert_eq!(chars, (line, begun.count()), "{text:?} {place:?}");
            if text.is_char_boundary(place.offset()) {
                assert_eq!(document.place(line, column), place, "{text:?}");
                assert_eq!(document.utf16_place(utf16.0, utf16.1), place, "{text:?}");
            }
        }
        assert_eq!(document.line_count(), text.split('\n').count());
        let lines = (0..document.line_count()).map(|line| &text[document.line(line).unwrap()]);
        assert!(lines.eq(text.split('\n')), "{text:?}");
        assert_eq!(document.line(document.line_count()), None);
    }
}

/// Returns the first char boundary at or after `from`.
fn place(text: &str, from: usize) -> usize {
    let mut places = from.min(text.len())..=text.len();
    places.find(|at| text.is_char_boundary(*at)).unwrap()
}

/// Returns a random range of char boundaries, usually a short one.
fn range_of(text: &str, random: &mut Random) -> Range<usize> {
    let start = place(text, random.below(text.len() + 1));
    let most = if random.below(8) == 0 {
        text.len() + 1
    } else {
        4
    };
    start..place(text, start + random.below(most))
}

/// Applies `count` random edits and compares the document with lexing the whole text after each. Returns the number of bytes that were lexed again
/// per 1000 bytes of text.
fn edits(seed: u64, count: usize, parts: usize) -> usize {
    let mut random = Random(seed);
    let (mut pair, mut read, mut bytes) = (Pair::new(String::new(), false), 0, 0);
    for done in 0..count {
        if done % 200 == 0 {
            read += pair.read;
            pair = Pair::new(random.text(parts), random.below(2) == 0);
        }
        let range = range_of(&pair.text, &mut random);
        let most = if random.below(8) == 0 { parts / 4 } else { 4 };
        let with = random.text(most);
        pair.edit(range, &with);
        pair.compare_lines(&mut random);
        bytes += pair.text.len();
    }
    (read + pair.read) * 1000 / bytes
}

#[test]
fn a_document_has_what_a_whole_read_has() {
    let read = [(1, 80), (2, 12), (3, 400)].map(|(seed, parts)| edits(seed, 3_000, parts));
    println!("read again, of a thousand bytes: {read:?}");
    assert!(read[2] < 300, "{read:?}");
}

#[test]
#[ignore = "takes a minute in release"]
fn a_million_edits() {
    for (seed, parts) in [(11, 80), (12, 12), (13, 40), (14, 150)] {
        println!("{}", edits(seed, 300_000, parts));
    }
}

#[test]
fn an_edit_inside_a_long_text_reads_little() {
    let line = "  (call $f (i32.const 17)) ;; and more\n";
    let mut document = Document::new(&line.repeat(10_000)).unwrap();
    let middle = 5_000 * line.len();
    let change = document.replace(middle + 9..middle + 10, "longer").unwrap();
    assert_eq!((change.removed, change.added), (1, 1));
    let change = document.replace(middle + 9..middle + 9, "\"").unwrap();
    assert_eq!(change.added, 1);
    let fault = document.faults().next().unwrap();
    assert_eq!(fault.range(), middle + 8..middle + line.len() + 5);
    assert_eq!(document.faults().count(), 1);
}

#[test]
fn an_open_comment_is_closed_later() {
    let mut document = Document::new("(; (a) (; (b)").unwrap();
    let faults = |document: &Document| {
        document
            .faults()
            .map(|fault| fault.offset)
            .collect::<Vec<_>>()
    };
    assert_eq!(faults(&document), [0, 7]);
    document.replace(13..13, ";)").unwrap();
    assert_eq!(faults(&document), [0]);
    let change = document.replace(15..15, " ;) c").unwrap();
    assert_eq!((faults(&document), change.first), (vec![], 0));
    assert_eq!(document.piece_count(), 3);
    document.replace(14..15, "").unwrap();
    assert_eq!(faults(&document), [0]);
}

#[test]
fn pieces_are_found_by_number_and_by_byte() {
    let mut document = Document::new("(a é)").unwrap();
    document.replace(1..2, "bc").unwrap();
    let ranges = [0..1, 1..3, 3..4, 4..6, 6..7];
    for (i, range) in ranges.iter().enumerate() {
        assert_eq!(document.piece(i).unwrap().range(), *range);
        assert!(range.clone().all(|byte| document.piece_at(byte) == i));
    }
    assert_eq!((document.piece(5), document.piece_at(7)), (None, 5));
    let tokens: Vec<_> = document.tokens().map(|token| token.range()).collect();
    assert_eq!(tokens, [0..1, 1..3, 3..4, 6..7]);
    assert!(
        document
            .pieces()
            .rev()
            .map(|piece| piece.range())
            .eq(ranges.into_iter().rev())
    );
    assert_eq!(document.clone().into_text(), "(bc é)");
    // No piece is before the edit.
    document.replace(0..0, "").unwrap();
    for document in [document, Document::default()] {
        let count = document.piece_count();
        let pieces = [count, usize::MAX - count, usize::MAX].map(|i| document.piece(i));
        assert_eq!(pieces, [None; 3]);
    }
}

#[test]
fn columns_are_those_of_the_line() {
    let document = Document::new("a\u{1f600}é\n").unwrap();
    let at = |line, column| document.utf16_place(line, column).offset();
    assert_eq!(
        [0, 1, 2, 3, 4, 9].map(|column| at(0, column)),
        [0, 1, 1, 5, 7, 7]
    );
    assert_eq!([at(1, 0), at(1, 3), at(2, 0)], [8, 8, 8]);
    let at = |line, column| document.place(line, column).offset();
    assert_eq!(
        [0, 1, 3, 5, 6, 9].map(|column| at(0, column)),
        [0, 1, 1, 5, 5, 7]
    );
    assert_eq!(at(7, 1), 8);
}

/// Compares the columns at every `step`th offset with those of a line index, and converts them back.
fn compare_columns(document: &Document, step: usize) {
    let text = document.text();
    let index = LineIndex::new(text);
    for offset in (0..text.len() + 2).step_by(step) {
        let span = Span::from_offset(offset);
        let (line, units) = index.utf16_linecol(span);
        assert_eq!(document.utf16_linecol(span), (line, units), "{offset}");
        assert_eq!(document.char_linecol(span), index.char_linecol(span));
        assert_eq!(document.linecol(span), index.linecol(span));
        if text.is_char_boundary(offset) {
            assert_eq!(document.utf16_place(line, units), span, "{offset}");
        }
    }
}

#[test]
fn columns_of_long_lines_are_those_of_a_line_index() {
    let (mut random, mut document) = (Random(5), Document::default());
    for done in 0..60 {
        let text = document.text();
        let mut range = range_of(text, &mut random);
        if text.len() > 8_000 {
            range = place(text, range.start / 4)..range.end;
        }
        let with = match random.below(3) {
            0 => "a\u{e9}\u{6f22}\u{1f600}".repeat(random.below(500)),
            1 => "0123456789".repeat(random.below(300)),
            _ => random.text(4),
        };
        document.replace(range, &with).unwrap();
        compare_columns(&document, if done % 15 == 0 { 1 } else { 19 });
    }
}

/// Checks the columns of errors in a line of `pairs` pairs of characters, and returns the time that this takes.
fn time_of_columns(pairs: usize) -> Duration {
    let document = Document::new(&"\u{1f600}\u{e9}".repeat(pairs)).unwrap();
    let start = Instant::now();
    for (count, fault) in document.faults().enumerate().step_by(40) {
        let (range, units) = (fault.range(), count / 2 * 3);
        let place = |at| document.utf16_linecol(Span::from_offset(at));
        assert_eq!(
            (place(range.start), place(range.end)),
            ((0, units), (0, units + 2))
        );
        assert_eq!(document.utf16_place(0, units).offset(), range.start);
    }
    start.elapsed()
}

/// Checks that the columns of the errors in a long line do not each read the line: the time would then grow by 16 if the line grows by 4. As other
/// processes can slow down any run, the least times of at most ten runs count.
#[test]
fn columns_of_many_faults_take_linear_time() {
    let (mut short, mut long) = (Duration::MAX, Duration::MAX);
    for _ in 0..10 {
        short = short.min(time_of_columns(10_000));
        long = long.min(time_of_columns(40_000));
        if long < 9 * short {
            return;
        }
    }
    panic!("{short:?} for 10,000 pairs, {long:?} for 40,000");
}

#[test]
#[should_panic = "no characters begin and end there"]
fn a_character_is_not_cut() {
    let _ = Document::new("é").unwrap().replace(0..1, "");
}
