// The program: an independent reading of 01, as M-103 of 02 corrects it, and of the text of a
// table, with its generator of tables and texts and its simulator. What it can be asked stands in
// USAGE.
mod make;
mod paper;
mod run;

use crate::make::{mixture, random, texts};
use crate::paper::rows;
use crate::paper::text::{print, read};
use crate::run::{batch, check, counts, items, simulate};
use std::io::{Read, Write};
use std::process::ExitCode;

const USAGE: &str = "usage: held rows | pack | unpack | items SEED COUNT | wrap FILE.. | answers | \
                     table SEED | tables SEED COUNT DIR | texts SEED COUNT DIR | \
                     prints SEED COUNT DIR | packets | simulate SEED COUNT | check";

fn main() -> ExitCode {
    let words: Vec<String> = std::env::args().skip(1).collect();
    let words: Vec<&str> = words.iter().map(String::as_str).collect();
    match command(&words) {
        Ok(true) => ExitCode::SUCCESS,
        Ok(false) => ExitCode::from(1),
        Err(text) => {
            eprintln!("{}", text);
            ExitCode::from(2)
        }
    }
}

fn number(word: &str) -> Result<u64, String> {
    word.parse().map_err(|_| format!("no number: {}", word))
}

fn input(most: u64) -> Result<Vec<u8>, String> {
    let mut bytes = Vec::new();
    std::io::stdin().take(most).read_to_end(&mut bytes).map_err(|e| e.to_string())?;
    Ok(bytes)
}

fn output(bytes: &[u8]) -> Result<bool, String> {
    let mut out = std::io::stdout().lock();
    out.write_all(bytes).and_then(|_| out.flush()).map_err(|e| e.to_string())?;
    Ok(true)
}

fn command(words: &[&str]) -> Result<bool, String> {
    match words {
        // "reads the table from standard input (at most 12,111 bytes of it)"
        ["rows"] => output(rows::printed(&input(12_111)?).as_bytes()),
        ["pack"] => match read::packed(&input(u64::MAX)?) {
            Ok(bytes) => output(&bytes),
            Err(sentence) => {
                std::io::stderr().write_all(&sentence).map_err(|e| e.to_string())?;
                Ok(false)
            }
        },
        ["unpack"] => {
            let (taken, text) = print::unpacked(&input(u64::MAX)?);
            Ok(output(text.as_bytes())? && taken)
        }
        ["items", seed, count] => {
            let mut stream = Vec::new();
            for item in batch::items(number(seed)?, number(count)?) {
                items::encode(&item, &mut stream);
            }
            output(&stream)
        }
        // each file as a table to be analysed, with room for 1,024 rows
        ["wrap", files @ ..] => {
            let mut stream = Vec::new();
            for file in files {
                let bytes = std::fs::read(file).map_err(|e| e.to_string())?;
                items::encode(&items::Item::Analyse { room: 6_144, bytes }, &mut stream);
            }
            output(&stream)
        }
        ["answers"] => {
            let mut text = String::new();
            for item in items::decode(&input(u64::MAX)?)? {
                text += &items::answered(&item).1;
            }
            output(text.as_bytes())
        }
        ["table", seed] => {
            let mut rng = random::Rng::part(number(seed)?, 0);
            output(&mixture::table(&mut rng, &mixture::cases()))
        }
        ["tables", seed, count, dir] => tables(number(seed)?, number(count)?, dir),
        ["texts", seed, count, dir] => texts(number(seed)?, number(count)?, dir),
        ["prints", seed, count, dir] => prints(number(seed)?, number(count)?, dir),
        ["packets"] => {
            counts::write(std::io::stdout().lock()).map_err(|e| e.to_string())?;
            Ok(true)
        }
        ["simulate", seed, count] => {
            let summary = simulate::simulate(number(seed)?, number(count)?);
            for text in &summary.violations {
                println!("VIOLATION {}", text);
            }
            println!("{}", simulate::line(&summary));
            Ok(summary.violations.is_empty())
        }
        ["check"] => {
            let (lines, failed) = check::check();
            for line in lines {
                println!("{}", line);
            }
            Ok(failed == 0)
        }
        _ => Err(USAGE.to_string()),
    }
}

/// The file DIR/000000.END and so on.
fn file(dir: &str, number: u64, end: &str, bytes: &[u8]) -> Result<(), String> {
    std::fs::create_dir_all(dir).map_err(|e| e.to_string())?;
    std::fs::write(format!("{dir}/{number:06}.{end}"), bytes).map_err(|e| e.to_string())
}

/// Tables .tbl, each with what the latency program writes in a file .out.
fn tables(seed: u64, count: u64, dir: &str) -> Result<bool, String> {
    let cases = mixture::cases();
    for k in 0..count {
        let bytes = mixture::table(&mut random::Rng::part(seed, k), &cases);
        let text = rows::printed(&bytes[..bytes.len().min(12_111)]);
        file(dir, k, "tbl", &bytes)?;
        file(dir, k, "out", text.as_bytes())?;
    }
    Ok(true)
}

/// Texts .txt, each with the table that `pack` writes in a file .tbl, or its sentence in one .err.
fn texts(seed: u64, count: u64, dir: &str) -> Result<bool, String> {
    let edges = texts::edges::edges();
    for k in 0..count {
        let text = texts::text(seed, k, &edges);
        file(dir, k, "txt", &text)?;
        match read::packed(&text) {
            Ok(bytes) => file(dir, k, "tbl", &bytes)?,
            Err(sentence) => file(dir, k, "err", &sentence)?,
        }
    }
    Ok(true)
}

/// Tables .tbl, each with what `unpack` prints in a file .out.
fn prints(seed: u64, count: u64, dir: &str) -> Result<bool, String> {
    let cases = mixture::cases();
    for k in 0..count {
        let bytes = texts::table(seed, k, &cases);
        file(dir, k, "tbl", &bytes)?;
        file(dir, k, "out", print::unpacked(&bytes).1.as_bytes())?;
    }
    Ok(true)
}
