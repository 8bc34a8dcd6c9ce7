//! The need, e, that a generated release names (document 02, change 5): one that is
//! accepted, 1 to C, one that number 15 refuses, or any.

use crate::random::Random;
use crate::tasks::Task;

use Needs::{Any, Large, Small, Whole};

/// What the accepted releases of one script name: C nearly always, C or up to two slots
/// fewer, any of 1 to C, or 1 and 2 nearly always.
#[derive(Clone, Copy)]
pub enum Needs {
    Whole,
    Large,
    Any,
    Small,
}

/// Whole budgets in half of the scripts: no job competes harder.
pub const NEEDS: [Needs; 8] = [Whole, Whole, Whole, Whole, Large, Large, Any, Small];

/// A need that a sound task takes.
pub fn accepted(random: &mut Random, needs: Needs, task: &Task) -> u32 {
    let whole = task.budget;
    let fewer = (whole - 1).max(1);
    let any = random.between(1, whole);
    match needs {
        Whole if random.one_in(16) => any,
        Whole => whole,
        Large => whole - random.between(0, 2).min(whole - 1),
        Any => random.pick(&[whole, fewer, 1, any, any, any]),
        Small if random.one_in(8) => whole,
        Small => random.between(1, whole.min(2)),
    }
}

/// A need that a sound task does not take: 0, the neighbours of C, D and T, the ends
/// of 32 bits, and some that a cut to fewer bits or a wrap would bring back to 1 to C.
pub fn refused(random: &mut Random, task: &Task) -> u32 {
    let next = task.budget + 1;
    let near = random.pick(&[
        0,
        next,
        next,
        task.deadline.max(next),
        task.period.max(next),
    ]);
    let cut = random.pick(&[256, 65_536, 1 << 20, 1 << 31]) + task.budget;
    let negative = random.between(1, task.budget).wrapping_neg();
    let far = random.between(next, u32::MAX);
    random.pick(&[0, near, near, cut, negative, far, u32::MAX])
}

/// A need for an entry of any numbers. Of sound ones it is accepted about half the time.
pub fn of_any_entry(random: &mut Random, task: &Task) -> u32 {
    let whole = task.budget;
    let any = random.between(1, whole.max(1));
    let (fewer, next) = (whole.wrapping_sub(1), whole.wrapping_add(1));
    let good = random.pick(&[whole, whole, fewer.max(1), 1, any, any]);
    let edge = random.pick(&[0, 0, next, next, fewer, task.deadline, task.period]);
    let far = random.between(0, u32::MAX);
    let back = whole.wrapping_add(random.pick(&[256, 65_536, 1 << 20, 1 << 31]));
    random.pick(&[good, good, good, edge, edge, far, back, u32::MAX])
}
