//! The command `dgn`.

#![forbid(unsafe_code)]

fn main() -> std::process::ExitCode {
    dgn_command::run(std::env::args_os().skip(1).collect()).into()
}
