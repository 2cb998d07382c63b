//! What the program `why` prints: the answer to `why`, a part to a line, with each slot's bytes and, under a refusal,
//! a sentence.
use super::print::{is_too_big, TOO_BIG};
use super::rules::header;
use super::{hex, why};

// All that it writes, each line with its newline.
pub fn printed(bytes: &[u8]) -> String {
    if is_too_big(bytes) {
        return TOO_BIG.to_string();
    }
    let answer = why::answer(bytes);
    let parts = answer.split(';').map(|part| line(part, bytes));
    let mut lines: Vec<String> = parts.collect();
    if answer.starts_with("rule ") {
        lines.push(sentence(&answer, bytes));
    }
    lines.join("\n") + "\n"
}

// A part of the answer, with the bytes of a slot that is present.
fn line(part: &str, bytes: &[u8]) -> String {
    match part.split(' ').collect::<Vec<_>>()[..] {
        ["slot", _, _, _, start, end] => {
            let code = &bytes[start.parse().unwrap()..end.parse().unwrap()];
            format!("{part} {}", hex(code))
        }
        _ => part.to_string(),
    }
}

// What e) to g) speak of: the rows, their pairs, Slen and Clen.
fn sizes(bytes: &[u8]) -> [usize; 4] {
    match header(bytes) {
        Ok(header) => [header.n, header.slots, header.body.slen, header.body.clen],
        Err(_) => [0; 4],
    }
}

// The rule in plain words. Rules h) and j) have them by the refusal's number.
fn sentence(answer: &str, bytes: &[u8]) -> String {
    let [n, slots, slen, clen] = sizes(bytes);
    match answer.split(' ').collect::<Vec<_>>()[1..] {
        ["a", ..] => "The pack does not begin with a matrix size that can be read.".to_string(),
        ["b", .., needed, got] => {
            format!("The parse control needs {needed} byte more, and {got} are there.")
        }
        ["c", .., slen, clen] => format!(
            "The parse control gives {slen} bytes to a deviation and {clen} to a correlation."
        ),
        ["d", .., value, min, max] => format!(
            "The matrix is said to have {value} rows, and {min} to {max} can be read."
        ),
        ["e", .., needed, got] => format!(
            "The {n} deviations of {slen} bytes need {needed} bytes, and {got} are there."
        ),
        ["f", .., needed, got] => format!(
            "The {slots} correlations of {clen} bytes need {needed} bytes, and {got} are there."
        ),
        ["g", .., needed, got] => format!(
            "The bit vector of {slots} correlations needs {needed} bytes, and {got} are there."
        ),
        ["h", .., "1", needed, got] => {
            format!("A deviation needs {needed} bytes, and {got} are left.")
        }
        ["h", .., "2", _, got] => format!(
            "A deviation of {got} bytes in this form can't be read: only IEEE numbers of 4 or 8 bytes can."
        ),
        ["i", .., needed, got] => format!(
            "The correlations that the bit vector marks present need {needed} bytes, and {got} are left."
        ),
        ["j", .., "1", needed, got] => {
            format!("A correlation needs {needed} bytes, and {got} are left.")
        }
        ["j", .., "4", length] => format!(
            "A mapped correlation of {length} bytes can't be read: only those of 1 to 8 bytes can."
        ),
        ["j", .., "2", _, got] => format!(
            "An IEEE correlation of {got} bytes can't be read: only those of 4 or 8 bytes can."
        ),
        ["k", .., used, given] => {
            format!("The pack ends after {used} bytes, and {given} are there.")
        }
        _ => panic!("no sentence for {answer}"),
    }
}
