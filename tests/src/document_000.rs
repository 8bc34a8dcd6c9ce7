//! The slack-based test as document 000 writes it, Algorithm 1, with periods for
//! deadlines: numbers in double precision, slacks that are updated in place, and an end
//! as soon as at most m tasks have no slack.

use crate::tasks::Task;

/// Whether the algorithm admits a task set.
pub fn admits(set: &[Task], cores: u32) -> bool {
    let most = usize::try_from(cores).expect("a few cores");
    let mut slacks = vec![0.0; set.len()];
    loop {
        let (mut converged, mut infeasible) = (true, 0);
        for k in 0..set.len() {
            let slack = new_slack(set, k, cores, &slacks);
            if slacks[k] < slack {
                slacks[k] = slack;
                converged = false;
            }
            infeasible += usize::from(slacks[k] <= 0.0);
        }
        if converged || infeasible <= most {
            return infeasible <= most;
        }
    }
}

// Line 6: the spare less one m-th of the sum.
fn new_slack(set: &[Task], k: usize, cores: u32, slacks: &[f64]) -> f64 {
    let period = f64::from(set[k].period);
    let spare = period - f64::from(set[k].budget);
    let mut sum = 0.0;
    for (i, task) in set.iter().enumerate().filter(|(i, _)| *i != k) {
        let window = f64::max(0.0, period - slacks[i]);
        sum += f64::min(interference(task, window), spare);
    }
    spare - 1.0 / f64::from(cores) * sum
}

// Formulas (1) and (2).
fn interference(task: &Task, window: f64) -> f64 {
    let (period, execution) = (f64::from(task.period), f64::from(task.budget));
    let whole = f64::floor(window / period);
    whole * execution + f64::min(execution, window - whole * period)
}
