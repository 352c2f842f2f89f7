//! Where two texts differ.

use std::fmt;

/// The first line in which two texts differ. A line is `None` where its text has ended.
#[derive(Drop)]
pub struct Difference<'a> {
    number: u64,
    wanted: Option<&'a str>,
    got: Option<&'a str>,
}

impl fmt::Display for Difference<'_> {
    fn fmt<W: fmt::Write>(&self, f: &mut fmt::Formatter<W>) -> fmt::Result {
        let number = self.number;
        let wanted = self.wanted.unwrap_or("the end");
        let got = self.got.unwrap_or("the end");
        write!(f, "line {number}\n  wanted {wanted}\n  got    {got}")
    }
}

/// The first difference between what is wanted and what was got, `None` where they are equal.
pub fn first_difference<'a>(wanted: &'a str, got: &'a str) -> Option<Difference<'a>> {
    if wanted == got {
        return None;
    }
    Some(first_line_apart(wanted, got))
}

/// The first line in which two texts differ, or the last if they differ in none.
fn first_line_apart<'a>(wanted: &'a str, got: &'a str) -> Difference<'a> {
    let mut wanted_lines = wanted.split('\n');
    let mut got_lines = got.split('\n');
    for number in 1..u64::MAX {
        let (wanted, got) = (wanted_lines.next(), got_lines.next());
        if wanted != got || wanted.is_none() {
            return Difference {
                number,
                wanted,
                got,
            };
        }
    }
    Difference {
        number: u64::MAX,
        wanted: None,
        got: None,
    }
}
