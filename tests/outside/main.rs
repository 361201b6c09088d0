//! The planner's tests from outside. `tests/run` calls this; `outside` by itself says how.

mod answer;
mod better;
mod by_bytes;
mod by_ticks;
mod census;
mod compare;
mod crosscheck;
mod edited;
mod enough;
#[path = "../generate/mod.rs"]
mod generate;
mod logged;
mod mend;
mod numbered;
mod options;
mod probe;
mod recorded;
#[path = "../reference/mod.rs"]
mod reference;
mod schedules;
mod sheets;
mod stg;
mod texts;

use options::{Mode, Options};
use std::process::ExitCode;

fn main() -> ExitCode {
    let options = match Options::from(std::env::args().skip(1)) {
        Ok(options) => options,
        Err(fault) => {
            eprintln!("outside: {fault}\n{}", options::USAGE);
            return ExitCode::from(2);
        }
    };
    let all_good = match options.mode {
        Mode::Compare => compare::compare(&options),
        Mode::OwnRequests => census::own_requests(&options),
        Mode::Schedules => schedules::schedules(&options),
        Mode::Pairs => better::pairs(&options),
        Mode::Sheets => sheets::sheets(&options),
        Mode::Sheet => sheets::sheet_of_input(),
        Mode::Frame => recorded::frame_of_input(&options, None),
        Mode::IdleFrame => recorded::frame_of_input(&options, Some(recorded::IDLE)),
        Mode::Requests => compare::requests(&options),
        Mode::Show => compare::show(&options),
        Mode::Answer => answer::answer_input(),
    };
    if all_good {
        ExitCode::SUCCESS
    } else {
        ExitCode::FAILURE
    }
}
