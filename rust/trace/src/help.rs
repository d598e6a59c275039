//! The text of `--help`.

use savorylatch::Reason;

/// All of it: the program, the language, and the reasons.
pub fn text() -> String {
    let reasons = Reason::ALL.iter().map(|reason| {
        let (number, name, code) = (reason.number(), reason.name(), reason.code());
        let code = format!("{code} ({})", code.number());
        format!("    {number:>2} {name:17} {code:23} {reason}\n")
    });
    let reasons: String = reasons.collect();
    format!(
        "{}{reasons}\ndocs/MANUAL.md says it all at length, with examples.\n",
        include_str!("help.txt")
    )
}
