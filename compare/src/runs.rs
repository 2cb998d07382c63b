//! The programs that are run on inputs of their own, one after the other, and what each is to write.
use crate::kinds::{hex, npy_programs, print, reasons, set_printed};
use crate::program::{written, Input, Written};
use crate::random::Random;
use crate::{cut, SHOWN};
use std::io;
use std::process::ExitCode;

// A program, by what it writes of an input, and by what it is given.
struct Program {
    expected: fn(&Input) -> Written,
    inputs: fn(&mut Random) -> Vec<Input>,
}

fn named(name: &str) -> io::Result<Program> {
    Ok(match name {
        "sdcc" => Program {
            expected: |input| Written::to_output(print::printed(&input.bytes)),
            inputs: print::inputs,
        },
        "why" => Program {
            expected: |input| Written::to_output(reasons::printed(&input.bytes)),
            inputs: print::inputs,
        },
        "set" => Program {
            expected: |input| Written::to_output(set_printed::printed(&input.bytes)),
            inputs: set_printed::inputs,
        },
        "to_npy" => Program {
            expected: npy_programs::to_npy,
            inputs: npy_programs::packs,
        },
        "to_pack" => Program {
            expected: npy_programs::to_pack,
            inputs: npy_programs::files,
        },
        _ => {
            return Err(io::Error::other(
                "the programs that are run are sdcc, why, set, to_npy and to_pack",
            ))
        }
    })
}

fn shown(of: &Written) -> String {
    let (out, err) = (of.out.escape_ascii(), of.err.escape_ascii());
    match of.err.is_empty() {
        true => cut(&format!("\"{out}\"")),
        false => cut(&format!("\"{out}\", and to standard error \"{err}\"")),
    }
}

pub fn compare(name: &str, seed: u64, program: &[String]) -> io::Result<ExitCode> {
    let Program { expected, inputs } = named(name)?;
    let inputs = inputs(&mut Random::new(seed));
    let mut differ = 0;
    for input in &inputs {
        let (expected, written) = (expected(input), written(program, input)?);
        if written == expected {
            continue;
        }
        differ += 1;
        if differ <= SHOWN {
            println!(
                "input {} {}",
                cut(&hex(&input.bytes)),
                input.words.join(" ")
            );
            println!("  Rust  {}", shown(&expected));
            println!("  port  {}", shown(&written));
        }
    }
    println!("{name}: {} runs compared, {differ} differ", inputs.len());
    Ok(ExitCode::from(u8::from(differ > 0)))
}
