//! The works of the proved programs in plain Rust, without crates and without proofs; `bench/plain/run` times both. The words and
//! the printed lines are those of the proved programs.

mod facts;
mod graphs;
mod messages;
mod tokens;
mod trees;
mod types;

use std::env;
use std::process::ExitCode;

const USAGE: &str = "usage: plain run POLICY SCRIPT, plain check POLICY, plain read SIZE ROUNDS, plain braid|ancestor SHAPE SIZE ROUNDS, or \
    plain facts query|copy|change ROWS ROUNDS";

fn number<T: std::str::FromStr>(word: &str) -> T {
    word.parse().ok().expect(USAGE)
}

fn main() -> ExitCode {
    let words: Vec<String> = env::args().skip(1).collect();
    let words: Vec<&str> = words.iter().map(String::as_str).collect();
    match words[..] {
        ["run", policy, _] => return tokens::read_policy(policy),
        ["check", policy] => return types::check_policy(policy),
        ["read", size, rounds] => messages::read_responses(number(size), number(rounds)),
        [ask @ ("braid" | "ancestor"), shape, size, rounds] => {
            graphs::ask_graph(ask, shape, number(size), number(rounds))
        }
        ["facts", "query", rows, rounds] => facts::query(number(rows), number(rounds)),
        ["facts", "change", rows, rounds] => facts::change(number(rows), number(rounds)),
        ["facts", "copy", rows, rounds] => facts::copy(number(rows), number(rounds)),
        _ => panic!("{USAGE}"),
    }
    ExitCode::SUCCESS
}
