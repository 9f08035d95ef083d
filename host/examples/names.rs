//! Converts a sheet (docs/FORMAT.md, "The sheet") as `./convert` does and prints the names of the bindings that are made:
//!
//!   names FILE
//!
//! A refusal is told on the standard error, with status 1; a file that is no sheet with status 2.

use std::fs;
use std::process::ExitCode;

use thawcopper::{convert, Refusal, Switches, Table};

/// The numbers of a line.
fn numbers<const N: usize>(line: &[u8]) -> Option<[u32; N]> {
    let list: Result<Vec<u32>, _> = std::str::from_utf8(line).ok()?.split(' ').map(str::parse).collect();
    list.ok()?.try_into().ok()
}

/// The switches and the table of a sheet; none where it is not one. What else is wrong with it, `./convert` says.
fn read(sheet: &[u8]) -> Option<(Switches, Table)> {
    let mut lines = sheet.strip_suffix(b"\n").unwrap_or(sheet).split(|byte| *byte == b'\n');
    let header = lines.next()? == b"arrow async asyncgen";
    let [arrow, async_to_generator, async_generator_functions] = numbers(lines.next()?)?.map(|switch: u32| switch == 1);
    if !header || lines.next()? != b"name" {
        return None;
    }
    let (mut rows, mut names, mut text) = (Vec::new(), Vec::new(), Vec::new());
    let put = |list: &mut Vec<u8>, words: &[u32]| list.extend(words.iter().flat_map(|word| word.to_le_bytes()));
    loop {
        let name = lines.next()?;
        if name == b"kind attr name end" {
            break;
        }
        put(&mut names, &[text.len() as u32, name.len() as u32]);
        text.extend_from_slice(name);
    }
    for line in lines {
        put(&mut rows, &numbers::<4>(line)?);
    }
    let switches = Switches { arrow, async_to_generator, async_generator_functions };
    Some((switches, Table::from_bytes(rows, names, text)))
}

fn print_names(switches: &Switches, table: &Table) -> Result<(), Refusal> {
    let names = convert(switches, table)?.names(table)?;
    println!("binding name");
    for (binding, name) in (1..).zip(&names) {
        println!("{} {}", binding, name);
    }
    Ok(())
}

fn main() -> ExitCode {
    let file = std::env::args().nth(1).and_then(|file| fs::read(file).ok());
    let Some((switches, table)) = file.and_then(|sheet| read(&sheet)) else {
        eprintln!("usage: names FILE, which is a sheet");
        return ExitCode::from(2);
    };
    match print_names(&switches, &table) {
        Ok(()) => ExitCode::SUCCESS,
        Err(refusal) => {
            eprintln!("{}", refusal);
            ExitCode::from(1)
        }
    }
}
