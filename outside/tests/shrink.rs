//! The shortest input that fails, against all shorter ones tried apart from the search.

use std::time::Duration;

use outside::demand3::{self, Op};
use outside::expected;
use outside::log;
use outside::shapes::Graph;
use outside::shrink::{shortest, Fault, Kind, Shortest};
use outside::streams::{self, Random, Sender, Source, STYLES};

const LONG: Duration = Duration::from_secs(3600);

fn wrong() -> Fault {
    Fault::new(Kind::Output, "wrong")
}

fn search(whole: usize, bound: Duration, fails: impl Fn(usize) -> bool) -> Shortest {
    shortest(whole, wrong(), bound, |n| {
        if fails(n) {
            Err(wrong())
        } else {
            Ok(())
        }
    })
}

#[test]
fn every_set_of_failing_lengths() {
    const WHOLE: usize = 10; // which fails, whatever shorter ones do
    for set in 0..1_u32 << WHOLE {
        let fails = |n: usize| n == WHOLE || set >> n & 1 == 1;
        let found = search(WHOLE, LONG, fails);
        assert_eq!(Some(found.groups), (0..=WHOLE).find(|n| fails(*n)));
        assert!(found.certain() && found.other.is_none());
    }
}

/// A flight that loses its last block when that has 30 to 33 records and is not the first.
#[test]
fn a_last_block_that_is_lost() {
    let lost = |input: &[u8]| {
        let blocks = expected::flight(input, 7).blocks;
        let last = blocks.len().saturating_sub(log::BLOCK);
        last > 0 && (30..=33).contains(&log::u16_at(&blocks[last..], 8))
    };
    let graph = Graph::reachable();
    let mut tried = 0;
    for seed in 0..200 {
        let style = STYLES[seed as usize % STYLES.len()];
        let input = streams::stream(&mut Random::new(seed), &graph, style, 150);
        let whole = input.len().div_ceil(12);
        let fails = |n: usize| lost(&input[..input.len().min(12 * n)]);
        if fails(whole) {
            let found = search(whole, LONG, fails);
            assert_eq!(Some(found.groups), (0..=whole).find(|n| fails(*n)));
            assert!(found.certain());
            tried += 1;
        }
    }
    assert!(tried > 5, "{tried} inputs that fail");
}

#[test]
fn no_time_is_told() {
    let found = search(100, Duration::ZERO, |n| n >= 40 || n == 3);
    assert_eq!((found.groups, found.untried), (40, 40));
    assert!(!found.certain());
}

#[test]
fn a_slow_run_is_another_fault() {
    let found = shortest(20, wrong(), LONG, |n| match n {
        5 => Err(Fault::new(Kind::Late, "slow")),
        12.. => Err(wrong()),
        _ => Ok(()),
    });
    assert_eq!((found.groups, found.late, found.untried), (12, 1, 0));
    assert!(!found.certain(), "5 groups may fail, given time");
    assert_eq!(found.other.map(|(n, _)| n), Some(5));
    // A shorter one that ends wrongly in another way is told, and leaves no doubt about this one.
    let found = shortest(20, wrong(), LONG, |n| match n {
        5..=6 => Err(Fault::new(Kind::Ending, "status 1")),
        12.. => Err(wrong()),
        _ => Ok(()),
    });
    assert_eq!(found.groups, 12);
    assert!(found.certain());
    assert_eq!(found.other.map(|(n, _)| n), Some(5));
}

/// What is printed when demand 3 fails: the calls that closed the blocks delivered, and no more.
#[test]
fn calls_that_a_delivery_needs() {
    let mut random = Random::new(1);
    let input = streams::stream(&mut random, &Graph::reachable(), STYLES[0], 300);
    let mut ops: Vec<Op> = input.chunks(12).map(|e| Op::Event(e.to_vec())).collect();
    ops.push(Op::Flush);
    let Ok(run) = demand3::run(7, &ops) else {
        panic!("the model's own run fails")
    };
    let sender = Sender {
        number: 7,
        blocks: &run.blocks,
        any_length: true,
    };
    let delivery = sender.delivery(&mut random);
    assert_eq!(demand3::calls_needed(&run, &[]), 0);
    assert_eq!(demand3::calls_needed(&run, &delivery), ops.len());
    for end in 0..delivery.len() {
        let part = &delivery[..end];
        let blocks = part.iter().filter_map(|d| match d.source {
            Source::Own(block) => Some(block + 1),
            Source::Stray => None,
        });
        let highest = blocks.max().unwrap_or(0);
        let needed = demand3::calls_needed(&run, part);
        let closed = |n: usize| demand3::run(7, &ops[..n]).map(|run| run.blocks.len());
        assert_eq!(closed(needed), Ok(highest));
        if needed > 0 {
            assert_eq!(closed(needed - 1), Ok(highest - 1));
        }
    }
    let told = demand3::told_calls(7, &ops[ops.len() - 2..]);
    assert!(told.ends_with("\nflush\n") && told.lines().count() == 3);
    assert_eq!(
        demand3::told_delivery(&delivery).lines().count(),
        1 + delivery.len()
    );
}
