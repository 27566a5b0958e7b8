//! The answers of a run as the lines that linerun prints, and back.

use reference::entry::ANSWER_WORDS;
use reference::words::{bits, word};

use crate::text::hex::lines_of;

/// Returns the lines that linerun prints for a run that is not refused.
pub fn write(answers: &[u32]) -> String {
    let calls = answers.chunks_exact(ANSWER_WORDS);
    let head = format!("calls {} code 0\n", calls.len());
    let lines = calls.enumerate().map(|(number, answer)| {
        let (caller, kind) = (bits(answer[0], 27, 22), bits(answer[0], 31, 28));
        let (code, x, y) = (bits(answer[0], 15, 0), answer[1], answer[2]);
        format!("call {number} caller {caller} kind {kind} code {code} data {x} {y}\n")
    });
    head + &lines.collect::<String>()
}

/// Whether a text starts as what linerun prints does.
pub fn is_printed(text: &str) -> bool {
    let first = lines_of(text).find(|(_, line)| !line.trim().is_empty());
    first.is_some_and(|(_, line)| line.trim_start().starts_with("calls "))
}

/// Returns the answers' words of what linerun printed, or what is wrong with it.
pub fn read(text: &str) -> Result<Vec<u32>, String> {
    let mut lines = lines_of(text).filter(|(_, line)| !line.trim().is_empty());
    let (number, head) = lines.next().ok_or("it is empty")?;
    let [calls, code] = numbers(head, ["calls", "code"])
        .ok_or_else(|| format!("line {number}: `calls 9 code 0` is wanted"))?;
    if code != 0 {
        return Err(format!("line {number}: the run was refused with {code}"));
    }
    let mut answers = Vec::new();
    for (number, line) in lines {
        let wrong = |why: &str| format!("line {number}: {why}");
        let answer = answer(line, answers.len() / ANSWER_WORDS);
        answers.extend(answer.map_err(wrong)?);
    }
    let read = answers.len() / ANSWER_WORDS;
    match read as u64 == calls {
        true => Ok(answers),
        false => Err(format!(
            "its first line says {calls} calls, and it has {read}"
        )),
    }
}

/// The three words of a line, which is that of call `wanted`.
fn answer(line: &str, wanted: usize) -> Result<[u32; ANSWER_WORDS], &'static str> {
    let (before, y) = line.trim_end().rsplit_once(' ').unwrap_or((line, ""));
    let y: u32 = y.parse().map_err(|_| LINE)?;
    let fields = ["call", "caller", "kind", "code", "data"];
    let [call, caller, kind, code, x] = numbers(before, fields).ok_or(LINE)?;
    if call != wanted as u64 {
        return Err("it is the line of another call than the next one");
    }
    match (caller, kind, code, u32::try_from(x)) {
        (0..=63, 0..=15, 0..=0xFFFF, Ok(x)) => {
            let first = word(kind as u32, (caller as u32) << 22 | code as u32);
            Ok([first, x, y])
        }
        _ => Err("a number is too large for its field"),
    }
}

/// What is said of a line that is none of linerun's.
const LINE: &str = "`call 0 caller 0 kind 2 code 17 data 0 0` is wanted";

/// The numbers of a line of names, each followed by one.
fn numbers<const N: usize>(line: &str, names: [&str; N]) -> Option<[u64; N]> {
    let words: Vec<&str> = line.split_whitespace().collect();
    if words.len() != 2 * N || (0..N).any(|at| words[2 * at] != names[at]) {
        return None;
    }
    let mut numbers = [0; N];
    for (at, number) in numbers.iter_mut().enumerate() {
        *number = words[2 * at + 1].parse().ok()?;
    }
    Some(numbers)
}

#[cfg(test)]
mod tests {
    use super::*;
    use crate::text::input::Input;
    use reference::cut;
    use reference::example::PRINTED;
    use reference::generate::{self, Rng};

    fn ran(input: &Input) -> Vec<u32> {
        let mut answers = vec![0; ANSWER_WORDS * cut(&input.list).len()];
        reference::run(&mut input.table.clone(), &input.list, &mut answers);
        answers
    }

    #[test]
    fn the_lines_are_those_that_linerun_prints() {
        assert_eq!(write(&ran(&Input::example())), PRINTED);
        let mut rng = Rng::new(12);
        for _ in 0..300 {
            let table = generate::table(&mut rng, 16, 32);
            let list = generate::list(&mut rng, &table, 40);
            let input = Input { table, list };
            let written = write(&ran(&input));
            assert_eq!(written.as_bytes(), reference::linerun(&input.to_bytes()));
            assert!(is_printed(&written));
            assert_eq!(read(&written), Ok(ran(&input)));
        }
        assert!(!is_printed("20000100 F0000005") && !is_printed("") && !is_printed("calls\n"));
    }

    #[test]
    fn what_is_wrong_with_the_lines_is_said() {
        let wrong = |text: &str| read(text).unwrap_err();
        assert_eq!(
            wrong("calls 1 code 0\n"),
            "its first line says 1 calls, and it has 0"
        );
        assert_eq!(
            wrong("calls 0 code 4\n"),
            "line 1: the run was refused with 4"
        );
        assert_eq!(
            wrong("calls x code 0"),
            "line 1: `calls 9 code 0` is wanted"
        );
        let line = "call 0 caller 0 kind 2 code 17 data 0 0";
        let short = wrong(&format!("calls 1 code 0\n{}", &line[..37]));
        assert_eq!(short, format!("line 2: {LINE}"));
        let twice = wrong(&format!("calls 2 code 0\n{line}\n{line}"));
        assert_eq!(
            twice,
            "line 3: it is the line of another call than the next one"
        );
        let large = line.replace("caller 0", "caller 64");
        let large = wrong(&format!("calls 1 code 0\n{large}"));
        assert_eq!(large, "line 2: a number is too large for its field");
    }
}
