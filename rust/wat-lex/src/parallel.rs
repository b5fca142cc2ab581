//! Lexing by several threads.

use crate::error::Error;
use crate::lexer::Lexer;
use crate::token::Token;
use alloc::vec::Vec;
use core::iter;
use core::num::NonZeroUsize;
use memchr::memchr;
use std::panic::resume_unwind;
use std::thread;

impl Lexer<'_> {
    /// Appends the tokens from byte offset `pos` to `lists`, up to the end of the text or the first lexical error, with at most `threads` threads, of
    /// which one is the calling thread. The lists, one after the other, are the tokens that [`tokens_into`](Lexer::tokens_into) appends. Needs the
    /// feature `parallel`.
    ///
    /// Each thread begins at a line of its own. Where a block comment extends over that line, the calling thread lexes the comment and the tokens
    /// after it, up to one that the other thread has found too. Below a megabyte threads cost more time than they save.
    ///
    /// ```
    /// use std::thread::available_parallelism;
    /// use wat_lex::Lexer;
    ///
    /// let mut lists = Vec::new();
    /// Lexer::new("(a)\n(b)").par_tokens_into(0, available_parallelism()?, &mut lists)?;
    /// assert_eq!(lists.into_iter().flatten().count(), 7);
    /// # Ok::<(), Box<dyn std::error::Error>>(())
    /// ```
    ///
    /// # Errors
    ///
    /// Returns the lexical error, or an error if the text has more than `u32::MAX` bytes. The tokens before a lexical error are in `lists` then.
    ///
    /// # Panics
    ///
    /// Panics if `pos` is not a char boundary of the text, or if the system cannot start a thread.
    pub fn par_tokens_into(
        &self,
        pos: usize,
        threads: NonZeroUsize,
        lists: &mut Vec<Vec<Token>>,
    ) -> Result<(), Error> {
        self.proved_at(pos)?;
        let starts = self.part_starts(pos, threads);
        thread::scope(|scope| {
            let parts: Vec<_> = starts
                .windows(2)
                .map(|part| scope.spawn(|| self.tokens_between(part[0], part[1])))
                .collect();
            let mut end = pos;
            self.append_until(starts[0], &mut end, lists)?;
            for part in parts {
                let part = part.join().unwrap_or_else(|panic| resume_unwind(panic));
                self.append_part(part, &mut end, lists)?;
            }
            self.append_until(self.input().len(), &mut end, lists)
        })
    }

    /// Returns the offsets at which the parts of all threads but the first begin, each at a line or at the end of the text, and last the length of
    /// the text.
    fn part_starts(&self, pos: usize, threads: NonZeroUsize) -> Vec<usize> {
        let text = self.input().as_bytes();
        let size = (text.len() - pos).div_ceil(threads.get()).max(1);
        (pos..text.len())
            .step_by(size)
            .skip(1)
            .map(|from| memchr(b'\n', &text[from..]).map_or(text.len(), |len| from + len + 1))
            .chain(iter::once(text.len()))
            .collect()
    }

    /// Returns the tokens from `start`, up to the first that begins at `end` or after it, or up to a lexical error. They are tokens of the text if
    /// one of its tokens begins at `start`.
    fn tokens_between(&self, start: usize, end: usize) -> Vec<Token> {
        self.iter(start)
            .map_while(Result::ok)
            .take_while(|token| token.offset < end)
            .collect()
    }

    /// Appends a list of the tokens from byte offset `pos` that begin before `end`, and sets `pos` to the end of the last.
    fn append_until(
        &self,
        end: usize,
        pos: &mut usize,
        lists: &mut Vec<Vec<Token>>,
    ) -> Result<(), Error> {
        let mut list = Vec::new();
        let ended = self.push_until(end, pos, &mut list);
        lists.extend((!list.is_empty()).then_some(list));
        ended
    }

    /// Pushes the tokens from byte offset `pos` that begin before `end`, and sets `pos` to the end of the last.
    fn push_until(&self, end: usize, pos: &mut usize, list: &mut Vec<Token>) -> Result<(), Error> {
        while *pos < end {
            list.extend(self.parse(pos)?);
        }
        Ok(())
    }

    /// Appends lists of the tokens from byte offset `pos` up to one that is in `part`, and of the rest of `part`. Sets `pos` to the end of the last.
    /// If no later token is in `part`, it appends those that begin before the last of `part`.
    fn append_part(
        &self,
        mut part: Vec<Token>,
        pos: &mut usize,
        lists: &mut Vec<Vec<Token>>,
    ) -> Result<(), Error> {
        loop {
            part.drain(..part.partition_point(|token| token.offset < *pos));
            match &part[..] {
                [] => return Ok(()),
                [first, ..] if first.offset > *pos => {
                    self.append_until(first.offset, pos, lists)?;
                }
                [.., last] => {
                    *pos = last.end();
                    lists.push(part);
                    return Ok(());
                }
            }
        }
    }
}
