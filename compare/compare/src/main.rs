//! Runs the comparison; see the README for the options.

use std::path::PathBuf;
use std::process::ExitCode;
use std::time::Duration;

use compare::run::{Plan, Run};
use compare::tally::Tally;

/// Every refusal from 2 on is asked for at least so often in a full run.
const LEAST: u64 = 50;

/// Texts collide at least so often in a full run, alone and in lists.
const LEAST_COLLIDED: u64 = 10_000;

/// The comparison has to get by with a small stack.
const STACK: usize = 256 * 1024;

struct Options {
    plan: Plan,
    program: Option<PathBuf>,
}

fn options() -> Result<Options, String> {
    let mut options = Options {
        plan: Plan {
            seed: 1,
            budget: Duration::from_secs(60),
            files: u64::MAX,
            questions: u64::MAX,
            full: false,
            found: PathBuf::from("found"),
        },
        program: None,
    };
    let mut words = std::env::args().skip(1);
    while let Some(word) = words.next() {
        let mut value = || words.next().ok_or(format!("{word} needs a value"));
        let plan = &mut options.plan;
        match word.as_str() {
            "--seed" => plan.seed = number(&value()?)?,
            "--seconds" => plan.budget = Duration::from_secs(number(&value()?)?),
            "--files" => plan.files = number(&value()?)?,
            "--questions" => plan.questions = number(&value()?)?,
            "--found" => plan.found = PathBuf::from(value()?),
            "--program" => options.program = Some(PathBuf::from(value()?)),
            "--full" => plan.full = true,
            _ => return Err(format!("unknown option {word}")),
        }
    }
    Ok(options)
}

fn number(word: &str) -> Result<u64, String> {
    word.parse().map_err(|_| format!("{word} is not a number"))
}

fn loaders(plan: Plan) -> Tally {
    let mut run = Run::new(plan, compare::others());
    run.go();
    run.tally
}

fn loaders_in_small_stack(plan: Plan) -> Option<Tally> {
    let thread = std::thread::Builder::new().stack_size(STACK);
    thread.spawn(move || loaders(plan)).ok()?.join().ok()
}

fn main() -> ExitCode {
    let options = match options() {
        Ok(options) => options,
        Err(words) => {
            eprintln!("{words}");
            return ExitCode::from(2);
        }
    };
    let plan = options.plan;
    if let Some(program) = options.program {
        return programs(&program, &plan);
    }
    for other in compare::others() {
        println!("second, plain, is compared with {}", other.title());
    }
    let Some(tally) = loaders_in_small_stack(plan.clone()) else {
        eprintln!("the run stopped");
        return ExitCode::FAILURE;
    };
    println!("{tally}");
    let rare = if plan.full { tally.rare(LEAST) } else { Vec::new() };
    if !rare.is_empty() {
        println!("refusals asked for fewer than {LEAST} times: {rare:?}");
    }
    let few_collided = plan.full && tally.few_collided(LEAST_COLLIDED);
    if few_collided {
        println!("texts collided fewer than {LEAST_COLLIDED} times, alone or in lists");
    }
    if tally.parted == 0 {
        println!("no two texts of one value hash parted");
    }
    match tally.differences == 0 && rare.is_empty() && !few_collided && tally.parted > 0 {
        true => ExitCode::SUCCESS,
        false => ExitCode::FAILURE,
    }
}

fn programs(program: &std::path::Path, plan: &Plan) -> ExitCode {
    match compare::program::compare(program, plan.seed, plan.budget) {
        Ok(outputs) => {
            println!("inputs:      {}", outputs.inputs);
            println!("accepted:    {}", outputs.accepted);
            println!("refused:     {}", outputs.refused);
            println!("bad lines:   {}", outputs.bad_lines);
            println!("differences: {}", outputs.differences);
            if outputs.differences == 0 {
                ExitCode::SUCCESS
            } else {
                ExitCode::FAILURE
            }
        }
        Err(error) => {
            eprintln!("the program could not be run: {error}");
            ExitCode::FAILURE
        }
    }
}
