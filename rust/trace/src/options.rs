//! The command line.

use std::ffi::OsString;

use crate::parse::{values, DEVICE};

/// What is asked of the program.
#[derive(Clone, Debug, PartialEq, Eq)]
pub enum Wish {
    Help,
    Version,
    Trace {
        file: OsString,
    },
    Quiet {
        file: OsString,
    },
    Frames {
        file: OsString,
    },
    Timeline {
        file: OsString,
    },
    Explain {
        file: OsString,
        hex: bool,
        device: u64,
    },
}

pub const USAGE: &str = "usage: savorylatch [--quiet | --frames | --timeline] SCRIPT\n\
                         \x20      savorylatch --explain [--hex] [--device N] FILE\n\
                         \x20      savorylatch --help | --version\n";

/// What the arguments, without the program's name, ask for; or what is wrong with them.
pub fn wish(arguments: impl Iterator<Item = OsString>) -> Result<Wish, String> {
    let mut given = Given::default();
    let mut arguments = arguments;
    let mut options = true;
    while let Some(argument) = arguments.next() {
        let text = argument.to_string_lossy().into_owned();
        match text.as_str() {
            "--" if options => options = false,
            "--device" if options => {
                let number = arguments.next().unwrap_or_default();
                given.device = Some(device(&number.to_string_lossy())?);
            }
            "--hex" if options => given.hex = true,
            text if options && text.starts_with('-') && text != "-" => given.way(text)?,
            _ if given.file.is_some() => return Err(format!("one file too many: '{text}'")),
            _ => given.file = Some(argument),
        }
    }
    given.wish()
}

fn device(text: &str) -> Result<u64, String> {
    let number = values::number(text).and_then(|(number, _)| u64::try_from(number).ok());
    number.ok_or_else(|| format!("expected a device id after --device, found '{text}'"))
}

/// The arguments, sorted.
#[derive(Default)]
struct Given {
    way: Option<String>,
    hex: bool,
    device: Option<u64>,
    file: Option<OsString>,
}

impl Given {
    fn way(&mut self, text: &str) -> Result<(), String> {
        let text = match text {
            "-h" => "--help",
            "-V" => "--version",
            "-q" => "--quiet",
            other => other,
        };
        let known = [
            "--help",
            "--version",
            "--quiet",
            "--frames",
            "--timeline",
            "--explain",
        ];
        if !known.contains(&text) {
            return Err(format!("unknown option '{text}'"));
        }
        match self.way.replace(text.to_owned()) {
            Some(other) if other != text => Err(format!("{other} and {text} do not go together")),
            _ => Ok(()),
        }
    }

    fn wish(self) -> Result<Wish, String> {
        let way = self.way.as_deref();
        match way {
            Some("--help") => return Ok(Wish::Help),
            Some("--version") => return Ok(Wish::Version),
            _ => {}
        }
        if way != Some("--explain") && (self.hex || self.device.is_some()) {
            return Err("--hex and --device go with --explain only".to_owned());
        }
        let file = self.file.ok_or("no file is named; '-' is standard input")?;
        Ok(match way {
            Some("--quiet") => Wish::Quiet { file },
            Some("--frames") => Wish::Frames { file },
            Some("--timeline") => Wish::Timeline { file },
            Some("--explain") => Wish::Explain {
                file,
                hex: self.hex,
                device: self.device.unwrap_or(DEVICE),
            },
            _ => Wish::Trace { file },
        })
    }
}

#[cfg(test)]
mod tests {
    use super::*;

    fn wished(arguments: &str) -> Result<Wish, String> {
        wish(arguments.split_whitespace().map(OsString::from))
    }

    #[test]
    fn wishes() {
        let file = || OsString::from("a.txt");
        assert_eq!(wished("a.txt"), Ok(Wish::Trace { file: file() }));
        assert_eq!(wished("--quiet a.txt"), Ok(Wish::Quiet { file: file() }));
        assert_eq!(wished("a.txt -q"), Ok(Wish::Quiet { file: file() }));
        assert_eq!(wished("--frames a.txt"), Ok(Wish::Frames { file: file() }));
        assert_eq!(
            wished("--timeline a.txt"),
            Ok(Wish::Timeline { file: file() })
        );
        assert_eq!(wished("--help"), Ok(Wish::Help));
        assert_eq!(wished("--version"), Ok(Wish::Version));
        let file = OsString::from("-");
        assert_eq!(wished("-"), Ok(Wish::Trace { file: file.clone() }));
        let explain = |hex, device| {
            let file = file.clone();
            Ok(Wish::Explain { file, hex, device })
        };
        assert_eq!(wished("--explain -"), explain(false, 1));
        assert_eq!(wished("--hex --device 0x7 - --explain"), explain(true, 7));
        let file = OsString::from("--frames");
        assert_eq!(wished("-- --frames"), Ok(Wish::Trace { file }));
    }

    #[test]
    fn what_is_wrong_is_said() {
        for (arguments, text) in [
            ("", "no file is named"),
            ("--frames", "no file is named"),
            ("a b", "one file too many: 'b'"),
            ("--frame a", "unknown option '--frame'"),
            (
                "--frames --quiet a",
                "--frames and --quiet do not go together",
            ),
            ("--hex a", "go with --explain only"),
            ("--device 1 a", "go with --explain only"),
            (
                "--explain --device",
                "expected a device id after --device, found ''",
            ),
            ("--explain --device x a", "found 'x'"),
        ] {
            let wrong = wished(arguments).unwrap_err();
            assert!(wrong.contains(text), "{arguments}: {wrong}");
        }
    }
}
