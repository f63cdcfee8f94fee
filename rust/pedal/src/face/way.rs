//! Which of the two ways is taken.

use std::env;
use std::ffi::OsStr;
use std::fmt;
use std::sync::OnceLock;

use crate::Broken;

/// The variable that chooses the way.
const VARIABLE: &str = "PEDAL_WAY";

/// A way to the proved library.
#[derive(Clone, Copy, Debug, PartialEq, Eq)]
pub enum Way {
    /// The library is part of this program.
    Linked,
    /// A proved program asks the library.
    Engine,
}

impl fmt::Display for Way {
    /// The way in words.
    fn fmt(&self, f: &mut fmt::Formatter<'_>) -> fmt::Result {
        f.write_str(match self {
            Way::Linked => "linked",
            Way::Engine => "through the engine",
        })
    }
}

/// The way that was chosen; it stays the same as long as the program runs.
static CHOSEN: OnceLock<Way> = OnceLock::new();

/// The way that every question takes.
#[inline]
pub fn way() -> Result<Way, Broken> {
    match CHOSEN.get() {
        Some(way) => Ok(*way),
        None => choose(),
    }
}

/// Chooses the way by the variable, and keeps to it.
#[cold]
fn choose() -> Result<Way, Broken> {
    let name = env::var_os(VARIABLE).unwrap_or_default();
    let way = named(&name, cfg!(linked))?;
    Ok(*CHOSEN.get_or_init(|| way))
}

/// The way of a name, in a program that has the library linked or not.
fn named(name: &OsStr, linked: bool) -> Result<Way, Broken> {
    match (name.to_str(), linked) {
        (Some(""), false) | (Some("engine"), _) => Ok(Way::Engine),
        (Some("" | "linked"), true) => Ok(Way::Linked),
        (Some("linked"), false) => Err(Broken::new(format!(
            "{VARIABLE} is linked, but this program was built without the library, which links \
             on x86-64 Linux alone: leave {VARIABLE} out, and the engine is asked"
        ))),
        _ => Err(Broken::new(format!(
            "{VARIABLE} is '{}', which is no way to the library: let it be engine or linked, or \
             leave it out",
            name.to_string_lossy().escape_debug()
        ))),
    }
}

#[cfg(test)]
mod tests {
    use super::*;

    /// The way of a name, or the words of its error.
    fn chosen(name: &str, linked: bool) -> Result<Way, String> {
        named(OsStr::new(name), linked).map_err(|broken| broken.to_string())
    }

    /// What is linked is the usual way, and the engine where nothing is.
    #[test]
    fn names() {
        assert_eq!(chosen("", true), Ok(Way::Linked));
        assert_eq!(chosen("", false), Ok(Way::Engine));
        assert_eq!(chosen("linked", true), Ok(Way::Linked));
        assert_eq!(chosen("engine", true), Ok(Way::Engine));
        assert_eq!(chosen("engine", false), Ok(Way::Engine));
    }

    /// Other names, and a way that is not there, are errors in words.
    #[test]
    fn no_names() {
        let words = chosen("linked", false).unwrap_err();
        assert!(words.starts_with("PEDAL_WAY is linked, but this program was built without"));
        for linked in [false, true] {
            let words = chosen("Engine\n", linked).unwrap_err();
            assert!(words.starts_with("PEDAL_WAY is 'Engine\\n', which is no way to the library"));
        }
    }
}
