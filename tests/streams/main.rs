//! Writes a stream for tests to standard output.
//!
//! Usage: `stream KIND SEED [large]`, KIND being syntax, picture, coefficients, coarse, filled, damaged, spoilt, apart, twin,
//! aimed, bounds, foreign or header; or
//! `stream measured NAME WIDTH HEIGHT`, NAME being lossless, lossy, subsampled, sheet,
//! uniform, uniform-lossless, columns, coarse or coarse-subsampled.

use independent::a::Header;
use std::env;
use std::io::{self, Write};
use std::process::ExitCode;
use streams::setting::{self, LARGE, SMALL};
use streams::{make, measured, KINDS, Q};

const FULL: &[(usize, usize)] = &[(1, 1); 3];
const QUARTER: &[(usize, usize)] = &[(1, 1), (2, 2), (2, 2)];

fn main() -> ExitCode {
    let words: Vec<String> = env::args().skip(1).collect();
    let words: Vec<&str> = words.iter().map(String::as_str).collect();
    let stream = match words[..] {
        ["measured", name, width, height] => measured_page(name, width, height),
        [kind, seed] => random_stream(kind, seed, SMALL),
        [kind, seed, "large"] => random_stream(kind, seed, LARGE),
        _ => None,
    };
    match stream.map(|bytes| io::stdout().write_all(&bytes)) {
        Some(Ok(())) => ExitCode::SUCCESS,
        Some(Err(error)) => {
            eprintln!("stream: {}", error);
            ExitCode::from(1)
        }
        None => {
            eprintln!("usage: stream KIND SEED [large] | stream measured NAME WIDTH HEIGHT");
            ExitCode::from(2)
        }
    }
}

fn random_stream(kind: &str, seed: &str, limits: setting::Limits) -> Option<Vec<u8>> {
    let (_, kind) = KINDS.into_iter().find(|(name, _)| *name == kind)?;
    Some(make(kind, seed.parse().ok()?, limits).bytes)
}

fn measured_page(name: &str, width: &str, height: &str) -> Option<Vec<u8>> {
    let (width, height) = (width.parse().ok()?, height.parse().ok()?);
    let (header, q) = match name {
        "lossless" => (setting::measured(width, height, true, FULL), Q::UpTo(0)),
        "lossy" => (setting::measured(width, height, false, FULL), Q::UpTo(5)),
        "subsampled" => (setting::measured(width, height, false, QUARTER), Q::UpTo(5)),
        "sheet" => (setting::measured(width, height, true, &FULL[..1]), Q::UpTo(0)),
        "uniform" => (Header { qpih: 1, ..setting::measured(width, height, false, FULL) }, Q::UpTo(5)),
        "uniform-lossless" => (Header { qpih: 1, ..setting::measured(width, height, true, FULL) }, Q::UpTo(0)),
        "columns" => (Header { cw: 1, ..setting::measured(width, height, true, FULL) }, Q::UpTo(0)),
        "coarse" => (Header { cw: 2, ..setting::measured(width, height, true, FULL) }, Q::InCorner(2)),
        "coarse-subsampled" => (Header { cw: 2, ..setting::measured(width, height, false, QUARTER) }, Q::InCorner(6)),
        _ => return None,
    };
    Some(measured(&header, q, 1))
}
