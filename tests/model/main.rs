//! An independent model of SS-CAD messages, of the call desk, and of the programs over them.
//! It shares nothing with the product: where the two differ, documents 01 and 02 decide.

mod ack;
mod activate;
mod bits;
mod break_off;
mod breakable;
mod breaks;
mod count;
mod counter;
mod crossing;
mod deactivations;
mod desk;
mod dice;
mod draw;
mod element;
mod event;
mod fault;
mod generate;
mod hex;
mod history;
mod interface;
mod interrogate_ack;
mod interrogation_fault;
mod interrogations;
mod laid_out;
mod layout;
mod line;
mod listing;
mod message;
mod moves;
mod odd;
mod places;
mod profile;
mod records;
mod refusal;
mod replay;
mod request;
mod requests;
mod rounds;
mod script;
mod selftest;
mod shapes;
mod shares;
mod step;
mod suite;
mod table;
mod tally;
mod trail;
mod user_fault;
mod value;
mod worked;
mod write;

use std::env;
use std::io::{self, BufWriter, Read, Write};
use std::process::ExitCode;

const USAGE: &str = "usage: model listing | generate SEED COUNT | suite | count | rounds | \
    crossing | replay | script SEED COUNT | tally | moves | \
    requests | deactivations | shares | breaks listing | breaks replay | \
    interrogations listing | interrogations replay | selftest";

fn main() -> ExitCode {
    let arguments: Vec<String> = env::args_os()
        .skip(1)
        .map(|argument| argument.to_string_lossy().into_owned())
        .collect();
    let words: Vec<&str> = arguments.iter().map(String::as_str).collect();
    match run(&words) {
        Ok(Some(true)) => ExitCode::SUCCESS,
        Ok(Some(false)) => ExitCode::from(1),
        Ok(None) => {
            eprintln!("{USAGE}");
            ExitCode::from(2)
        }
        Err(error) => {
            eprintln!("model: {error}");
            ExitCode::from(1)
        }
    }
}

/// Whether the subcommand found all good; nothing if there is no such subcommand.
fn run(words: &[&str]) -> io::Result<Option<bool>> {
    let mut out = BufWriter::new(io::stdout());
    let mut good = true;
    match words {
        ["listing"] => listing::list(&standard_input()?, &mut out)?,
        ["generate", seed, count] => match (seed.parse(), count.parse()) {
            (Ok(seed), Ok(count)) => generate::generate(seed, count, &mut out)?,
            _ => return Ok(None),
        },
        ["suite"] => suite::write_suite(&mut out)?,
        ["rounds"] => rounds::print_rounds(&mut out)?,
        ["crossing"] => crossing::cross(&standard_input()?, &mut out)?,
        ["replay"] => replay::replay(&standard_input()?, &mut out)?,
        ["script", seed, count] => match (seed.parse(), count.parse()) {
            (Ok(seed), Ok(count)) => history::write_script(seed, count, &mut out)?,
            _ => return Ok(None),
        },
        ["tally"] => good = tally::tally(&standard_input()?, &mut out)?,
        ["moves"] => good = moves::count_moves(&standard_input()?, &mut out)?,
        ["requests"] => good = requests::count_requests(&standard_input()?, &mut out)?,
        ["deactivations"] => {
            good = deactivations::count_deactivations(&standard_input()?, &mut out)?;
        }
        ["shares"] => good = shares::count_shares(&standard_input()?, &mut out)?,
        ["breaks", "listing"] => good = breaks::count_in_listing(&standard_input()?, &mut out)?,
        ["breaks", "replay"] => good = breaks::count_in_replay(&standard_input()?, &mut out)?,
        ["interrogations", "listing"] => {
            good = interrogations::count_in_listing(&standard_input()?, &mut out)?;
        }
        ["interrogations", "replay"] => {
            good = interrogations::count_in_replay(&standard_input()?, &mut out)?;
        }
        ["count"] => good = count::count(&standard_input()?, &mut out)?,
        ["selftest"] => good = selftest::selftest(&mut out)?,
        _ => return Ok(None),
    }
    out.flush()?;
    Ok(Some(good))
}

fn standard_input() -> io::Result<Vec<u8>> {
    let mut input = Vec::new();
    io::stdin().lock().read_to_end(&mut input)?;
    Ok(input)
}
