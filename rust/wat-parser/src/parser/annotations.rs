use super::{ParseBuffer, Parser, Result};
use crate::proved::parser::names::{Names, RegisterError};
use crate::words::{StdAnnotation, Word};
use alloc::string::String;
use core::cell::{Cell, Ref, RefCell};
use wat_lex::shim::alloc::{Global, granted};

impl<'a> Parser<'a> {
    /// Registers the name of an annotation until the returned guard is dropped: groups `(@name ..)` are visible, instead of being skipped.
    ///
    /// A name that is registered twice is registered until both guards are dropped. Visibility depends on the names that are registered at the time
    /// of the peek, even if an earlier peek at the same position yielded another token. [`ParseBuffer::keep_shown`] changes that.
    ///
    /// # Panics
    ///
    /// Panics if the name is registered `usize::MAX` times.
    ///
    /// # Examples
    ///
    /// ```
    /// use wat_parser::annotation;
    /// use wat_parser::parser::{self, Parse, ParseBuffer, Parser, Result};
    ///
    /// annotation!(note);
    ///
    /// // A number, optionally after a note.
    /// struct Noted<'a>(Option<&'a str>, u32);
    ///
    /// impl<'a> Parse<'a> for Noted<'a> {
    ///     fn parse(parser: Parser<'a>) -> Result<Self> {
    /// // `note` must be registered before a peek reaches the `(` of the group.
    ///         let registered = parser.register_annotation("note");
    ///         let text = if parser.peek2::<note>()? {
    ///             Some(parser.parens(|group| {
    ///                 group.parse::<note>()?;
    ///                 group.parse()
    ///             })?)
    ///         } else {
    ///             None
    ///         };
    ///         drop(registered);
    ///         Ok(Noted(text, parser.parse()?))
    ///     }
    /// }
    ///
    /// # fn main() -> Result<()> {
    /// let buffer = ParseBuffer::new("(@note \"a lot\") (@other (one)) 9 (@note)")?;
    /// let Noted(text, number) = parser::parse(&buffer)?;
    /// assert_eq!((text, number), (Some("a lot"), 9));
    /// # Ok(())
    /// # }
    /// ```
    #[must_use = "the name is registered until this is dropped"]
    pub fn register_annotation<'b>(self, annotation: &'b str) -> impl Drop + 'b
    where
        'a: 'b,
    {
        let buffer = self.buffer;
        match buffer.registry().register(annotation) {
            Ok(is_changed) => buffer.note_change(is_changed),
            Err(RegisterError::OutOfMemory(refused)) => granted(Err(refused)),
            Err(RegisterError::TooOften) => panic!("annotation registered too often"),
        }
        Registered {
            buffer,
            name: annotation,
        }
    }

    /// Calls the function while the names of [`annotation`](mod@crate::annotation) are registered.
    ///
    /// # Errors
    ///
    /// Returns the error of the function.
    ///
    /// # Examples
    ///
    /// ```
    /// use wat_parser::annotation;
    /// use wat_parser::parser::{self, Parse, ParseBuffer, Parser, Result};
    /// // A number with a name.
    /// struct Named<'a>(&'a str, u32);
    ///
    /// impl<'a> Parse<'a> for Named<'a> {
    ///     fn parse(parser: Parser<'a>) -> Result<Self> {
    ///         parser.with_standard_annotations_registered(|parser| {
    ///             let name = parser.parens(|group| {
    ///                 group.parse::<annotation::name>()?;
    ///                 group.parse()
    ///             })?;
    ///             Ok(Named(name, parser.parse()?))
    ///         })
    ///     }
    /// }
    ///
    /// # fn main() -> Result<()> {
    /// let buffer = ParseBuffer::new("(@name \"seven\") 7")?;
    /// let Named(name, number) = parser::parse(&buffer)?;
    /// assert_eq!((name, number), ("seven", 7));
    /// # Ok(())
    /// # }
    /// ```
    pub fn with_standard_annotations_registered<R>(
        self,
        inside: impl FnOnce(Self) -> Result<R>,
    ) -> Result<R> {
        let _registered = [
            StdAnnotation::<0>::word(),
            StdAnnotation::<1>::word(),
            StdAnnotation::<2>::word(),
            StdAnnotation::<3>::word(),
            StdAnnotation::<4>::word(),
        ]
        .map(|name| self.register_annotation(name));
        inside(self)
    }
}

/// A guard for a registered name, which is unregistered on drop.
struct Registered<'b> {
    buffer: &'b ParseBuffer<'b>,
    name: &'b str,
}

impl Drop for Registered<'_> {
    fn drop(&mut self) {
        let is_changed = self.buffer.registry().unregister(self.name);
        self.buffer.note_change(is_changed);
    }
}

/// The registered names. A parser may register the same name again and again, so that a name is unregistered only by the next peek or the next
/// unregistration, unless it is registered again before.
pub(super) struct Registry {
    names: RefCell<Names>,
    /// The name that is still to be unregistered, if `is_pending`.
    pending: RefCell<String>,
    is_pending: Cell<bool>,
}

impl Default for Registry {
    fn default() -> Registry {
        Registry {
            names: RefCell::new(Names::new(Global)),
            pending: RefCell::default(),
            is_pending: Cell::new(false),
        }
    }
}

impl Registry {
    /// Adds a registration. Returns `true` if it changes the names.
    #[inline]
    fn register(&self, name: &str) -> Result<bool, RegisterError> {
        if self.is_pending() && *self.pending.borrow() == name {
            self.is_pending.set(false);
            return Ok(false);
        }
        self.names.borrow_mut().register(Global, name)?;
        Ok(true)
    }

    /// Removes a registration, or marks it as pending. Returns `true` if it changes the names.
    fn unregister(&self, name: &str) -> bool {
        let is_changed = self.is_pending();
        if is_changed {
            self.unregister_pending();
        }
        let mut pending = self.pending.borrow_mut();
        pending.clear();
        if pending.try_reserve(name.len()).is_err() {
            self.names.borrow_mut().unregister(name);
            return true;
        }
        pending.push_str(name);
        self.is_pending.set(true);
        is_changed
    }

    /// Returns `true` if a name is still to be unregistered.
    #[inline(always)]
    pub(super) fn is_pending(&self) -> bool {
        self.is_pending.get()
    }

    /// Unregisters the pending name. Precondition: there is one.
    #[cold]
    #[inline(never)]
    pub(super) fn unregister_pending(&self) {
        self.is_pending.set(false);
        self.names.borrow_mut().unregister(&self.pending.borrow());
    }

    /// Returns the names. Precondition: no name is pending.
    pub(super) fn names(&self) -> Ref<'_, Names> {
        self.names.borrow()
    }
}
