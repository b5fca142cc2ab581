//! Settings of a lexer and a buffer.

use crate::sides::{layer, proved};
use crate::texts::Random;
use wat_parser::lexer::Lexer;
use wat_parser::proved::lexer as proved_lexer;
use wat_parser::shim::alloc::Global;

/// The values that each setter is called with in turn. The last is the setting; without one it is off.
#[derive(Debug, Default)]
pub struct Settings {
    pub allow: Vec<bool>,
    pub strict: Vec<bool>,
    pub track: Vec<bool>,
    pub keep: Vec<bool>,
}

fn last(values: &[bool]) -> bool {
    values.last().copied().unwrap_or_default()
}

impl Settings {
    pub fn random(random: &mut Random) -> Settings {
        Settings {
            allow: random.settings(),
            strict: random.settings(),
            track: random.settings(),
            keep: vec![],
        }
    }

    pub fn lexer<'a>(&self, text: &'a str) -> Lexer<'a> {
        let mut lexer = Lexer::new(text);
        for allow in &self.allow {
            lexer.allow_confusing_unicode(*allow);
        }
        for strict in &self.strict {
            lexer.strict_underscores(*strict);
        }
        lexer
    }

    pub fn proved_lexer<'a>(&self, text: &'a str) -> proved_lexer::Lexer<'a> {
        let settings = proved_lexer::Settings {
            allow: last(&self.allow),
            strict: last(&self.strict),
        };
        proved_lexer::Lexer::with_settings(text, settings)
    }

    pub fn buffer<'a>(&self, text: &'a str) -> layer::ParseBuffer<'a> {
        let mut buffer = layer::ParseBuffer::new_with_lexer(self.lexer(text)).unwrap();
        for track in &self.track {
            buffer.track_instr_spans(*track);
        }
        for keep in &self.keep {
            buffer.keep_shown(*keep);
        }
        buffer
    }

    pub fn proved_buffer<'a>(&self, text: &'a str) -> proved::ParseBuffer<'a> {
        let lexer = self.proved_lexer(text);
        let mut buffer = proved::ParseBuffer::new_with_lexer(Global, lexer).unwrap();
        buffer.track_instr_spans(last(&self.track));
        buffer
    }
}
