//! The command line: one subcommand for each kind of question.

use std::io::{self, BufWriter, Read, Write};
use std::path::Path;
use std::process::ExitCode;

use oracle::{
    coverage, damage, edge, find, generate, layouts, lists, lookups, rows, shapes, sheet, types,
};

const USAGE: &str = "\
usage: oracle rows                         every fact of the thirty-three descriptions
       oracle lookups                      every lookup over its whole domain
       oracle find SEED COUNT              random shapes, and what each test finds in them
       oracle shapes SEED COUNT            the same shapes as records of a sheet
       oracle layouts SEED COUNT           their alignments in memory, and what their pieces make
       oracle lists SEED COUNT             random variable argument lists, and where each scalar is
       oracle sheet                        a sheet's lines, the sheet read from standard input
       oracle coverage                     by which rules that sheet decides, and how often
       oracle generate SEED COUNT [good]   a random sheet of so many operations
       oracle generate SEED COUNT damaged  one that stops on its way
       oracle edge                         one that gets to the largest stack offset
       oracle types                        what each type comes to, a sheet of types read likewise
       oracle types-generate SEED COUNT    such a sheet of random types, many of them refused
       oracle types-c SEED COUNT FOLDER [KIND]
                                           a sheet of types that C has, and the same types as C, with
                                           long double where its kind is given

A damaged sheet holds one damage, so have many of them:
       for seed in $(seq 1000); do oracle generate $seed 20 damaged | oracle sheet; done
Exits 1 on a bad command line, a failed write or a damaged sheet of types, 2 where the Rust and the
rules contradict, and where a sheet leaves out a rule.
";

fn main() -> ExitCode {
    let arguments: Vec<String> = std::env::args().skip(1).collect();
    let words: Vec<&str> = arguments.iter().map(String::as_str).collect();
    let mut out = BufWriter::new(io::stdout().lock());
    let Some(answered) = answer(&mut out, &words) else {
        eprint!("{USAGE}");
        return ExitCode::from(1);
    };
    match answered.and_then(|agreed| out.flush().map(|()| agreed)) {
        Ok(Ok(())) => ExitCode::SUCCESS,
        Ok(Err(wrong)) => {
            eprintln!("oracle: {wrong}");
            ExitCode::from(2)
        }
        Err(why) => {
            eprintln!("oracle: {why}");
            ExitCode::from(1)
        }
    }
}

fn read_sheet() -> io::Result<Vec<u8>> {
    let mut bytes = Vec::new();
    io::stdin().lock().read_to_end(&mut bytes)?;
    Ok(bytes)
}

/// Answers a question, or nothing where there is none such. The inner error tells what is wrong: the
/// Rust and the rules contradict, or a sheet leaves out a rule.
fn answer(out: &mut impl Write, words: &[&str]) -> Option<io::Result<Result<(), String>>> {
    let number = |word: &str| word.parse::<u64>().ok();
    let contradicted = |agreed: Result<(), String>| {
        agreed.map_err(|why| format!("the Rust and the rules contradict {why}"))
    };
    let written = match *words {
        ["sheet"] => {
            let printed = read_sheet().and_then(|bytes| sheet::print(out, &bytes));
            return Some(printed.map(contradicted));
        }
        ["lists", seed, count] => {
            return Some(lists::print(out, number(seed)?, number(count)?).map(contradicted));
        }
        ["types"] => {
            let printed = read_sheet().and_then(|bytes| types::print(out, &bytes));
            return Some(printed.map(contradicted));
        }
        ["coverage"] => return Some(read_sheet().and_then(|bytes| coverage::print(out, &bytes))),
        ["rows"] => rows::print(out),
        ["lookups"] => lookups::print(out),
        ["find", seed, count] => find::print(out, number(seed)?, number(count)?),
        ["shapes", seed, count] => shapes::write(out, number(seed)?, number(count)?),
        ["layouts", seed, count] => layouts::print(out, number(seed)?, number(count)?),
        ["generate", seed, count] | ["generate", seed, count, "good"] => {
            generate::write(out, number(seed)?, number(count)?)
        }
        ["generate", seed, count, "damaged"] => damage::write(out, number(seed)?, number(count)?),
        ["edge"] => edge::write(out),
        ["types-generate", seed, count] => types::write(out, number(seed)?, number(count)?),
        ["types-c", seed, count, folder] => {
            types::write_c(Path::new(folder), number(seed)?, number(count)?, None)
        }
        ["types-c", seed, count, folder, kind @ ("3" | "4")] => {
            types::write_c(Path::new(folder), number(seed)?, number(count)?, Some(number(kind)?))
        }
        _ => return None,
    };
    Some(written.map(Ok))
}
