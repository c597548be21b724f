//! How a command ends: 0 if all is well, 1 if something differs, 2 after one line that says why it
//! could not be run.
use std::process::ExitCode;

pub fn exit(command: &str, outcome: Result<bool, String>) -> ExitCode {
    match outcome {
        Ok(well) => ExitCode::from(!well as u8),
        Err(reason) => {
            eprintln!("{command}: {reason}");
            ExitCode::from(2)
        }
    }
}
