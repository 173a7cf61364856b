//! The macros that write commands, and the one that declares them.

/// Writes commands: on any `std::io::Write`, which may be a `&mut` of one.
///
/// ```
/// use crossterm::{cursor::{MoveDown, MoveTo}, queue};
/// use std::io::Write;
///
/// fn draw(out: &mut impl Write) -> std::io::Result<()> {
///     queue!(out, MoveTo(0, 0), MoveDown(2))
/// }
/// ```
#[macro_export]
macro_rules! queue {
    ($writer:expr $(, $command:expr)* $(,)?) => {{
        use ::std::io::Write as _;
        match $writer.by_ref() {
            writer => (|| -> ::std::io::Result<()> {
                #[allow(unused_mut)]
                let mut run = $crate::Run::new(writer);
                $(run.put($command)?;)*
                run.end()
            })(),
        }
    }};
}

/// Writes commands, and flushes.
///
/// ```
/// use crossterm::{cursor::MoveTo, execute};
///
/// execute!(std::io::stderr(), MoveTo(0, 0))?;
/// # Ok::<(), std::io::Error>(())
/// ```
#[macro_export]
macro_rules! execute {
    ($writer:expr $(, $command:expr)* $(,)?) => {{
        use ::std::io::Write as _;
        match $writer.by_ref() {
            writer => (|| -> ::std::io::Result<()> {
                let mut run = $crate::Run::new(&mut *writer);
                $(run.put($command)?;)*
                run.end()?;
                ::std::mem::drop(run);
                ::std::io::Write::flush(writer)
            })(),
        }
    }};
}

/// Literals behind `ESC [`, as one.
#[doc(hidden)]
#[macro_export]
macro_rules! csi {
    ($($part:expr),*) => { ::std::concat!("\x1b[", $($part),*) };
}

/// Literals between `ESC ]` and its end, as one.
#[doc(hidden)]
#[macro_export]
macro_rules! osc {
    ($($part:expr),*) => { ::std::concat!("\x1b]", $($part),*, "\x1b\\") };
}

/// Declares commands, each by the proved one whose text it has. They are shown as their text.
macro_rules! commands {
    ($($(#[$doc:meta])* $name:ident $(($($field:ident: $of:ty),*))? => $command:expr;)*) => {$(
        $(#[$doc])*
        #[derive(Clone, Copy, Debug, PartialEq, Eq)]
        pub struct $name $(($(pub $of),*))?;

        impl $crate::Command for $name {
            #[inline]
            fn write_ansi(&self, f: &mut impl ::std::fmt::Write) -> ::std::fmt::Result {
                $(let $name($($field),*) = *self;)?
                $crate::command::write_proved(f, &$command)
            }
        }

        $crate::macros::shown!($name);
    )*};
}
pub(crate) use commands;

/// Shows a command as its text.
macro_rules! shown {
    ($name:ident $(<$value:ident>)?) => {
        impl $(<$value: ::std::fmt::Display>)? ::std::fmt::Display for $name $(<$value>)? {
            fn fmt(&self, f: &mut ::std::fmt::Formatter<'_>) -> ::std::fmt::Result {
                $crate::Command::write_ansi(self, f)
            }
        }
    };
}
pub(crate) use shown;
