use std::process::ExitCode;

fn main() -> ExitCode {
    type_name_tool::cli::run(std::env::args_os().skip(1).collect())
}
