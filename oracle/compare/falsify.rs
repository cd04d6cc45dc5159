//! Shows that the comparison can fail: wrong numbers, one of each sort, a wrong decoder of longer payloads,
//! wrong marks, wrong models of the marks and of the distances, and wrong readers of containers.

use crate::appended::Fault;
use crate::heard_all::Breach;
use crate::mark_rule::Lapse;
use crate::run::Run;
use crate::spoil::{spoils, Spoil};
use crate::wrong::Wrong;
use oracle::distances::{Mistake as Misplaced, MISTAKES as MISPLACED};
use oracle::listener::Listener;
use oracle::mark_mistakes::{Mistake, MISTAKES};
use std::fmt::Debug;

/// Enough for each spoil's moment, and for each mistake to show.
const SEQUENCES: usize = 20_000;

pub fn falsify(seed: u64) -> bool {
    let number = |spoil: &Spoil| wrong_number(seed, *spoil);
    let heard = |wrong: &Wrong| wrongly_heard(seed, *wrong);
    let longer = |fault: &Fault| faulty_longer(seed, *fault);
    let beside = |breach: &Breach| breached(seed, *breach);
    let marks = |lapse: &Lapse| lapsed(seed, *lapse);
    let model = |mistake: &Mistake| wrong_model(seed, Listener::mistaken(*mistake));
    let misplaced = |mistake: &Misplaced| wrong_model(seed, Listener::misplaced(*mistake));
    let wrongs = Wrong::all();
    report_views(seed)
        & report_containers(seed)
        & report("wrong numbers", &spoils(), number)
        & report("numbers wrongly heard by the other decoder", &wrongs, heard)
        & report("faults of longer payloads", &Fault::all(), longer)
        & report("breaches of the demand", &Breach::all(), beside)
        & report("lapses of the mark rule", &Lapse::all(), marks)
        & report("wrong models of marks", &MISTAKES, model)
        & report("wrong models of distances", &MISPLACED, misplaced)
}

#[cfg(not(views))]
fn report_views(_seed: u64) -> bool {
    true
}

/// Each number of the calls on finished tables, expected wrongly.
#[cfg(views)]
fn report_views(seed: u64) -> bool {
    use crate::views::Views;
    report("wrong numbers of views", &Views::parts(), |part| {
        let mut views = Views::new(seed);
        views.spoil = Some(*part);
        (0..SEQUENCES).any(|_| {
            views
                .case()
                .is_err_and(|difference| difference.part == *part)
        })
    })
}

#[cfg(not(containers))]
fn report_containers(_seed: u64) -> bool {
    true
}

/// Each sort of thing that is expected wrongly once, and each wrong reader.
#[cfg(containers)]
fn report_containers(seed: u64) -> bool {
    use crate::containers::{Containers, Spoil, SPOILS};
    use oracle::container_mistakes::{Mistake, MISTAKES};
    let at_once = |spoil: &Spoil| {
        let mut containers = Containers::new(seed);
        containers.spoil = Some(*spoil);
        let found = (0..SEQUENCES).find_map(|_| {
            let found = containers.case().is_err();
            let spoiled = containers.spoil.is_none();
            (found || spoiled).then_some(found && spoiled)
        });
        found == Some(true)
    };
    let found = |mistake: &Mistake| {
        let mut containers = Containers::new(seed);
        containers.mistake = Some(*mistake);
        (0..SEQUENCES).any(|_| containers.case().is_err())
    };
    report("wrong numbers and bytes of containers", &SPOILS, at_once)
        & report("wrong readers of containers", &MISTAKES, found)
}

/// Prints how many are judged rightly, and names the others.
fn report<T: Debug>(name: &str, all: &[T], rightly: impl Fn(&T) -> bool) -> bool {
    let wrongly: Vec<&T> = all.iter().filter(|one| !rightly(one)).collect();
    let good = all.len() - wrongly.len();
    println!("{name}: {}, of these judged rightly {good}", all.len());
    for one in &wrongly {
        println!("judged wrongly: {one:?}");
    }
    wrongly.is_empty()
}

/// A difference is found when the number is spoiled, and not before.
fn wrong_number(seed: u64, spoil: Spoil) -> bool {
    let mut run = Run::new(seed, Listener::default());
    run.bench.spoil = Some(spoil);
    let spoiled = |run: &Run| run.bench.spoil.is_some_and(|spoil| spoil.done);
    judged(run, spoiled, true)
}

/// A settled number that is wrong is found at once; an unsettled one is not.
fn wrongly_heard(seed: u64, wrong: Wrong) -> bool {
    let mut run = Run::new(seed, Listener::default());
    run.all.spoil = Some(wrong);
    judged(run, |run| run.all.spoil.is_none(), wrong.is_found())
}

/// A wrong answer to a truncated payload with bytes appended is found at once.
fn faulty_longer(seed: u64, fault: Fault) -> bool {
    let mut run = Run::new(seed, Listener::default());
    run.appended.fault = Some(fault);
    judged(run, |run| run.appended.fault.is_none(), true)
}

/// Whether the sequence in which a number is spoiled, and none before it, has a difference; or has none.
fn judged(mut run: Run, spoiled: impl Fn(&Run) -> bool, is_found: bool) -> bool {
    for _ in 0..SEQUENCES {
        let found = run.sequence().is_err();
        let spoiled = spoiled(&run);
        if found || spoiled {
            return spoiled && found == is_found;
        }
    }
    false
}

/// Marks that break the mark rule are found at once.
fn lapsed(seed: u64, lapse: Lapse) -> bool {
    let mut run = Run::new(seed, Listener::default());
    run.mark_rule.lapse = Some(lapse);
    judged(run, |run| run.mark_rule.lapse.is_none(), true)
}

fn breached(seed: u64, breach: Breach) -> bool {
    let mut run = Run::new(seed, Listener::default());
    run.all.breach = Some(breach);
    finds_a_difference(run)
}

fn wrong_model(seed: u64, listener: Listener) -> bool {
    finds_a_difference(Run::new(seed, listener))
}

fn finds_a_difference(mut run: Run) -> bool {
    (0..SEQUENCES).any(|_| run.sequence().is_err())
}
