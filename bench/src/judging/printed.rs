//! What the program `linerun` did with an input, beside what it should print: the first
//! line that differs, how it ended, and a shorter input that still differs.

use std::path::Path;

use reference::words::to_bytes;

use crate::cases::inputs::{apart, due, PLAIN_CALL};
use crate::kernels::program::{run, End, Feed, Ran};
use line::judging::shrink::fewest;
use line::text::explain::counted;
use line::text::hex;

/// How much of a line is shown.
const SHOWN_MAX: usize = 120;

/// What is wrong with what a program did: how it ended, the first line that differs, and
/// anything that it writes to standard error.
pub fn difference(ran: &Ran, expected: &[u8]) -> Option<String> {
    let fault = ran.end.fault();
    let line = line_difference(&ran.printed, expected);
    let said = ran.said.split_inclusive(|&byte| byte == b'\n').next();
    let said = said.map(|line| {
        let line = line.strip_suffix(b"\n").unwrap_or(line);
        format!(
            "on standard error, where nothing should be, it says: {}",
            shown(line)
        )
    });
    let wrong: Vec<String> = fault.into_iter().chain(line).chain(said).collect();
    (!wrong.is_empty()).then(|| wrong.join("\n  "))
}

/// The first line that differs.
fn line_difference(printed: &[u8], expected: &[u8]) -> Option<String> {
    if printed == expected {
        return None;
    }
    if printed.is_empty() {
        let first = shown_line(lines(expected).next());
        return Some(format!("it prints nothing; line 1 should be: {first}"));
    }
    let got: Vec<&[u8]> = lines(printed).collect();
    let wanted: Vec<&[u8]> = lines(expected).collect();
    let place = (0..).find(|&place| got.get(place) != wanted.get(place))?;
    Some(format!(
        "line {number} is:        {}\n  line {number} should be: {}",
        shown_line(got.get(place).copied()),
        shown_line(wanted.get(place).copied()),
        number = place + 1
    ))
}

/// The lines of what is printed, each with its end.
fn lines(printed: &[u8]) -> impl Iterator<Item = &[u8]> {
    printed.split_inclusive(|&byte| byte == b'\n')
}

fn shown_line(line: Option<&[u8]>) -> String {
    match line.map(|line| (line, line.strip_suffix(b"\n"))) {
        None => "(there is no such line)".to_string(),
        Some((_, Some(whole))) => shown(whole),
        Some((cut, None)) => shown(cut) + " (without the end of a line)",
    }
}

/// What a program printed, as any terminal can show it: only the start where there
/// is much, and other bytes than plain letters and signs escaped.
fn shown(printed: &[u8]) -> String {
    let start = &printed[..printed.len().min(SHOWN_MAX)];
    let escaped = start.escape_ascii();
    match printed.len() - start.len() {
        0 => escaped.to_string(),
        more => format!("{escaped} and {} more", counted(more, "byte")),
    }
}

/// The words of an input that differs, with a shorter list where that still does.
pub fn shorter(program: &Path, input: &[u8], feed: Feed, ran: &Ran) -> String {
    let differs = |input: &[u8]| {
        let held = feed.held && due(input).is_some();
        let again = run(program, input, Feed { held, ..feed }).ok()?;
        difference(&again, &reference::linerun(input))
    };
    let smaller = match ran.end {
        // Each of them would take as long.
        End::TooLong(_) => input.to_vec(),
        _ => with_fewer_words(input, |input| differs(input).is_some()),
    };
    let mut report = String::new();
    if smaller != input {
        let size = counted(smaller.len(), "byte");
        let why = differs(&smaller).unwrap_or_default();
        report += &format!("Cut down to {size}:\n  {why}\n");
    }
    report
        + &match smaller.as_slice() {
            [] => "The input is empty.\n".to_string(),
            _ => format!(
                "Its words, as `balkwizu write` takes them:\n{}",
                hex::write_bytes(&smaller)
            ),
        }
}

/// An input with the plainest and shortest list that still differs.
fn with_fewer_words(input: &[u8], differs: impl Fn(&[u8]) -> bool) -> Vec<u8> {
    let (head, list, left_over) = apart(input);
    let with = |list: &[u32]| [head, &to_bytes(list), left_over].concat();
    let plain = vec![PLAIN_CALL; list.len()];
    let list = if differs(&with(&plain)) { plain } else { list };
    with(&fewest(&list, |list| differs(&with(list))))
}

#[cfg(test)]
mod tests {
    use super::*;
    use line::text::input::Input;
    use reference::words::from_bytes;

    fn report(printed: &[u8], end: End, expected: &[u8]) -> Option<String> {
        difference(&ran(printed, b"\x1B[31mbad\nmore", end), expected)
    }

    fn ran(printed: &[u8], said: &[u8], end: End) -> Ran {
        Ran {
            printed: printed.to_vec(),
            said: said.to_vec(),
            end,
        }
    }

    #[test]
    fn how_a_program_ends_is_compared_too() {
        let right = b"calls 0 code 7\n";
        assert_eq!(difference(&ran(right, b"", End::Status(0)), right), None);
        let said = report(right, End::Status(0), right).unwrap();
        assert!(said.starts_with("on standard error, where nothing should be"));
        let status = report(right, End::Status(3), right).unwrap();
        assert!(status.starts_with("it ended with status 3"), "{status}");
        let said = "on standard error, where nothing should be, it says: \\x1b[31mbad";
        assert!(status.ends_with(said), "{status}");
        let signal = report(b"", End::Signal(6), right).unwrap();
        assert!(signal.starts_with("it was ended by signal 6 (aborted)"));
        assert!(signal.contains("it prints nothing; line 1 should be: calls 0 code 7"));
    }

    #[test]
    fn the_first_line_that_differs_is_shown() {
        let differs = |printed: &[u8], expected: &[u8]| {
            report(printed, End::Status(0), expected).expect("a difference")
        };
        let other = differs(b"a\nb\x07\n", b"a\nc\n");
        assert!(other.starts_with("line 2 is:        b\\x07\n  line 2 should be: c\n"));
        let fewer = differs(b"a\n", b"a\nc\n");
        assert!(fewer.starts_with("line 2 is:        (there is no such line)"));
        let more = differs(b"a\nc\n", b"a\n");
        assert!(more.contains("line 2 should be: (there is no such line)"));
        let cut = differs(b"a", b"a\n");
        assert!(cut.starts_with("line 1 is:        a (without the end of a line)"));
        let long = differs(&[b'a'; 200], b"a\n");
        assert!(long.contains("aaa and 80 bytes more"), "{long}");
    }

    #[test]
    fn an_input_that_differs_is_cut_down() {
        let input = Input::example().to_bytes();
        let has_a_grant = |input: &[u8]| from_bytes(input).contains(&0x6042_0001);
        let words = from_bytes(&with_fewer_words(&input, has_a_grant));
        assert_eq!(words[..35], from_bytes(&input)[..35]);
        assert_eq!(words[35..], [0x6042_0001]);
        let left_over = [&input[..], &[9]].concat();
        let odd = with_fewer_words(&left_over, |input| input.len() % 4 == 1);
        assert_eq!(odd, [&input[..4 * 35], &[9]].concat());
        let long = to_bytes(&[vec![0], (0..4097).collect()].concat());
        let too_long = with_fewer_words(&long, |input| input.len() > 4 * 4097);
        assert_eq!(hex::write_bytes(&too_long), "00000000 50000000*4097\n");
        assert_eq!(with_fewer_words(&[1, 2], |_| true), [1, 2]);
    }
}
