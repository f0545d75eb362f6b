//! Cuts the text on the command line, or `THD 1250`, and prints its tokens in brackets, one a line.

use njuxaleet::{tokens, Options};
use std::env;
use std::io::{self, Write};
use std::os::unix::ffi::OsStringExt;
use std::process::ExitCode;

fn print_cut(text: &[u8]) -> io::Result<ExitCode> {
    let mut out = io::stdout().lock();
    match tokens(text, Options::O200K) {
        Ok(cut) => {
            for token in cut {
                out.write_all(&[b"[", token, b"]\n"].concat())?;
            }
            Ok(ExitCode::SUCCESS)
        }
        Err(refusal) => {
            writeln!(out, "refused {} at {}", refusal.number(), refusal.place())?;
            Ok(ExitCode::FAILURE)
        }
    }
}

fn main() -> io::Result<ExitCode> {
    let text = env::args_os()
        .nth(1)
        .map_or(b"THD 1250".to_vec(), OsStringExt::into_vec);
    print_cut(&text)
}
