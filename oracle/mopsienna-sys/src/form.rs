//! The forms of the functions: for pages of 4,096 bytes, for those of 1,024, with the page size as the
//! first argument, and those of another commit.

use std::fmt;

/// Which library is called, and for which page size. The functions that both have are methods of this.
#[derive(Clone, Copy, PartialEq)]
pub enum Form {
    /// libmopsienna, at pages of 4,096 bytes.
    Fixed,
    /// libmopsienna too, at the small panel's pages of 1,024 bytes.
    Panel,
    /// libsized, which takes the page size with each call.
    Sized(u64),
    /// libmopsienna of another commit, which is timed beside this one's.
    #[cfg(feature = "before")]
    Before,
}

/// The library of another commit, if one is linked.
#[cfg(feature = "before")]
pub const BEFORE: Option<Form> = Some(Form::Before);
#[cfg(not(feature = "before"))]
pub const BEFORE: Option<Form> = None;

/// The page sizes of libmopsienna.
const PAGE_SIZE: usize = 4096;
const PANEL_PAGE_SIZE: usize = 1024;

impl Form {
    /// libmopsienna at its page sizes, libsized at any other.
    pub fn at(page_size: usize) -> Form {
        match page_size {
            PAGE_SIZE => Form::Fixed,
            PANEL_PAGE_SIZE => Form::Panel,
            _ => Form::Sized(page_size as u64),
        }
    }

    pub fn page_size(self) -> usize {
        match self {
            Form::Sized(size) => size as usize,
            Form::Panel => PANEL_PAGE_SIZE,
            _ => PAGE_SIZE,
        }
    }
}

impl fmt::Display for Form {
    fn fmt(&self, f: &mut fmt::Formatter<'_>) -> fmt::Result {
        match self {
            Form::Fixed => write!(f, "libmopsienna"),
            Form::Panel => write!(f, "panel"),
            Form::Sized(size) => write!(f, "page size {size:4}"),
            #[cfg(feature = "before")]
            Form::Before => write!(f, "libmopsienna of another commit"),
        }
    }
}

/// libsized takes a page's size as the words of four bytes that it has more than the least page.
pub(crate) fn words(page_size: u64) -> u64 {
    page_size.saturating_sub(16) / 4
}

/// Declares functions that both libraries have: `mopsienna_NAME` as `fixed::NAME`, `mopsienna_panel_NAME`
/// as `panel::NAME`, and `sized_NAME`, which takes the page size before all else, as `sized::NAME`. Those of
/// another commit's library are `before_mopsienna_NAME`, and take the same arguments as the first.
macro_rules! in_both {
    ($(fn $name:ident($($parameter:ident: $type:ty),* $(,)?) -> u32;)*) => {
        $crate::form::in_module! {
            fixed, "mopsienna_": $(fn $name($($parameter: $type),*);)*
        }
        $crate::form::in_module! {
            panel, "mopsienna_panel_": $(fn $name($($parameter: $type),*);)*
        }
        $crate::form::in_module! {
            sized, "sized_": $(fn $name(words: u64, $($parameter: $type),*);)*
        }
        #[cfg(feature = "before")]
        $crate::form::in_module! {
            before, "before_mopsienna_": $(fn $name($($parameter: $type),*);)*
        }
    };
}

/// Declares functions in a module of this name. In the library their names start with the text.
macro_rules! in_module {
    ($module:ident, $start:literal: $(fn $name:ident($($parameter:ident: $type:ty),*);)*) => {
        mod $module {
            use $crate::Out;

            extern "C" {$(
                #[link_name = concat!($start, stringify!($name))]
                pub fn $name($($parameter: $type),*) -> u32;
            )*}
        }
    };
}

/// Calls a function that [`in_both`] declared, in the form at hand.
macro_rules! call {
    ($form:expr, $name:ident($($argument:expr),* $(,)?)) => {
        match $form {
            Form::Fixed => fixed::$name($($argument),*),
            Form::Panel => panel::$name($($argument),*),
            Form::Sized(page_size) => sized::$name($crate::form::words(page_size), $($argument),*),
            #[cfg(feature = "before")]
            Form::Before => before::$name($($argument),*),
        }
    };
}

pub(crate) use {call, in_both, in_module};
