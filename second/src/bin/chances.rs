//! Holds the program that tells chances to exact fractions.
//!
//! `chances PROGRAM FOLDER`: random rules with random weights, many of them
//! small, are written to FOLDER and given to PROGRAM. The figure that it prints
//! is not further from the exact chance than the error that it prints.

use std::process::{Command, ExitCode};

use second::build::reachable;
use second::chance::chance;
use second::exact::Whole;
use second::sample::{self, Random, SHAPES};

/// Figures compared, and how many of them have to lie between 0 and 1.
const FIGURES: usize = 1_500;
const BETWEEN: usize = 250;

/// A weight as it is written, and as a number of 10^-13.
fn weight(random: &mut Random, small: bool) -> (String, u64) {
    let digit = random.between(1, 9) as u64;
    let power = match random.below(8) {
        0 => return ("0".into(), 0),
        1..=3 if small => random.below(13),
        _ => random.between(11, 14),
    };
    (
        format!("{digit}e{}", power as i32 - 13),
        digit * 10u64.pow(power as u32),
    )
}

/// A number as it was printed: whole, and a power of ten by which it is divided.
fn read(text: &str) -> Option<(Whole, u32)> {
    let (digits, power) = text.split_once('e').unwrap_or((text, "0"));
    let (front, behind) = digits.split_once('.').unwrap_or((digits, ""));
    let number = Whole::from(format!("{front}{behind}").parse::<u64>().ok()?);
    let places = behind.len() as i32 - power.parse::<i32>().ok()?;
    match u32::try_from(places) {
        Ok(places) => Some((number, places)),
        Err(_) => Some((&number * &Whole::power_of_ten(places.unsigned_abs()), 0)),
    }
}

/// Is |x / by - figure| at most `error`, and the figure at most 1?
fn within(x: &Whole, by: &Whole, figure: &str, error: &str) -> Option<bool> {
    let ((figure, places), (error, more)) = (read(figure)?, read(error)?);
    let figure = &figure * &Whole::power_of_ten(more);
    let error = &error * &Whole::power_of_ten(places);
    let one = Whole::power_of_ten(places + more);
    let apart = (&(&figure * by) - &(x * &one)).size();
    Some(!(&(&error * by) - &apart).is_negative() && !(&one - &figure).is_negative())
}

/// The figure and its error: "  chance FIGURE, error at most ERROR; .."
fn figure(printed: &str) -> Option<(&str, &str)> {
    let line = printed
        .lines()
        .find_map(|line| line.strip_prefix("  chance "))?;
    let (figure, rest) = line.split_once(", error at most ")?;
    Some((figure, rest.split_once(';')?.0))
}

fn main() -> ExitCode {
    let arguments: Vec<String> = std::env::args().skip(1).collect();
    let [program, folder] = &arguments[..] else {
        eprintln!("usage: chances PROGRAM FOLDER");
        return ExitCode::FAILURE;
    };
    let path = format!("{folder}/chance.rule");
    let mut random = Random::new(54);
    let (mut compared, mut between, mut large) = (0, 0, 0);
    while compared < FIGURES || between < BETWEEN {
        let (states, letters) = (random.between(1, 5), random.between(2, 4));
        let shape = *random.pick(&SHAPES);
        let rule = sample::rule(&mut random, shape, states, letters);
        let small = !random.once_in(4);
        let weights: Vec<(String, u64)> =
            (0..letters).map(|_| weight(&mut random, small)).collect();
        let numbers: Vec<u64> = weights.iter().map(|&(_, number)| number).collect();
        if numbers.iter().all(|&number| number == 0) {
            continue;
        }
        let table = reachable(&rule, 400, 4_000).ok();
        let Some((x, by)) = table.and_then(|table| chance(&rule, table, &numbers)) else {
            large += 1;
            continue;
        };
        std::fs::write(&path, sample::file(&rule)).unwrap();
        let texts = weights.iter().map(|(text, _)| text);
        let output = Command::new(program)
            .arg(&path)
            .args(texts)
            .output()
            .unwrap();
        let printed = String::from_utf8_lossy(&output.stdout);
        let told = figure(&printed).and_then(|(figure, error)| within(&x, &by, figure, error));
        if !output.status.success() || told != Some(true) {
            eprintln!("{path}, weights {weights:?}: {x:?} / {by:?}, but {output:?}");
            return ExitCode::FAILURE;
        }
        compared += 1;
        between += usize::from(!x.is_zero() && x != by);
    }
    println!("chances: {compared} as the exact fractions, {between} of them between 0 and 1; {large} rules too large");
    ExitCode::SUCCESS
}
