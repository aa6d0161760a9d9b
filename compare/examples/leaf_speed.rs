//! Times the leaves that walk a table beside plain Rust that does the same, and prints the ratios. Each time is the least of many runs, and
//! the two are run in turn on the same tables.
use compare::document_01::is_queue;
use compare::leaves::{Queue, Regions, new_region};
use compare::timing::ratio;
use compare::{MOST_REGIONS, QUEUE_WORDS};
use oracle::core::control_data::{ConfidentialHart, ConfidentialVm, ConfidentialVmId, ConfidentialVmMmioRegion};
use oracle::driver::{Command, Random};
use std::hint::black_box;

fn random_command(random: &mut Random) -> Command {
    let (mask, base, start, size, tag) = (random.next(), random.below(64), random.next(), random.next(), random.next());
    match 1 + random.below(6) {
        kind @ (1 | 2) => Command { kind, mask, base, ..Command::default() },
        3 => Command { kind: 3, mask, base, start, size, tag: 0 },
        kind @ (4 | 5) => Command { kind, mask, base, start, size, tag },
        kind => Command { kind, ..Command::default() },
    }
}

fn queues() {
    for (name, most) in [("empty", 0), ("of 63 commands", 63)] {
        let random = &mut Random::new(1);
        let queues: Vec<Queue> = (0..1024)
            .map(|_| {
                let mut queue = Queue([0; QUEUE_WORDS]);
                while queue.0[0] < most {
                    assert_eq!(queue.offer(random_command(random)), 0);
                }
                queue
            })
            .collect();
        ratio(
            &format!("soundness of 1,024 queues {name}"),
            || assert!(black_box(&queues).iter().all(Queue::is_well_formed)),
            || assert!(black_box(&queues).iter().all(|queue| is_queue(&queue.0))),
        );
    }
    // The last command of a queue of 63, offered again: the whole queue is searched, and nothing changes.
    let random = &mut Random::new(2);
    let mut queues: Vec<(Queue, Vec<Command>, Command)> = (0..1024)
        .map(|_| {
            let (mut queue, mut list) = (Queue([0; QUEUE_WORDS]), Vec::new());
            let mut last = Command::default();
            while queue.0[0] < 63 {
                last = random_command(random);
                let before = queue.0[0];
                assert_eq!(queue.offer(last), 0);
                if queue.0[0] > before {
                    list.push(last);
                }
            }
            (queue, list, last)
        })
        .collect();
    let mut others = queues.clone();
    ratio(
        "offer of a command that waits last among 63, 1,024 queues",
        || assert!(black_box(&mut queues).iter_mut().all(|(queue, _, last)| queue.offer(*last) == 0)),
        || {
            assert!(black_box(&mut others).iter_mut().all(|(_, list, last)| {
                if list.iter().find(|c| *c == last).is_none() {
                    list.push(*last);
                }
                list.len() == 63
            }))
        },
    );
}

fn regions() {
    for count in [8, 128, MOST_REGIONS - 1] {
        let mut ours = Regions::new();
        let mut rust = ConfidentialVm::new(ConfidentialVmId::new(1), vec![ConfidentialHart::from_vm_hart_reset(0)]);
        let made = |start: usize, size: usize| ConfidentialVmMmioRegion::new(start, size).expect("in range");
        for i in 0..count {
            assert_eq!(ours.add(new_region(16 * i as u64, 8).1), 0);
            rust.add_mmio_region(made(16 * i, 8)).expect("none overlap");
        }
        ratio(
            &format!("a region that is not defined, {count} regions"),
            || (0..64).for_each(|_| assert!(!black_box(&ours).is_mmio_region_defined(black_box([12, 14])))),
            || (0..64).for_each(|_| assert!(!black_box(&rust).is_mmio_region_defined(&black_box(made(12, 2))))),
        );
        ratio(
            &format!("an add that is refused by the last of {count} regions"),
            || (0..64).for_each(|_| assert_eq!(black_box(&mut ours).add(black_box([16 * count as u64 - 9, 16 * count as u64])), 10)),
            || (0..64).for_each(|_| assert!(black_box(&mut rust).add_mmio_region(black_box(made(16 * count - 9, 9))).is_err())),
        );
        ratio(
            &format!("a remove that drops none of {count} regions"),
            || (0..64).for_each(|_| black_box(&mut ours).remove(black_box([12, 14]))),
            || (0..64).for_each(|_| black_box(&mut rust).remove_mmio_region(&black_box(made(12, 2)))),
        );
        let words = &ours.words[..2 * MOST_REGIONS];
        ratio(
            &format!("soundness of a table of {count} regions"),
            || (0..64).for_each(|_| assert!(black_box(&ours).are_sound())),
            || {
                (0..64).for_each(|_| {
                    let (standing, unused) = black_box(words).split_at(2 * count);
                    assert!(standing.chunks_exact(2).all(|place| place[0] <= place[1]) && unused.iter().all(|&word| word == 0))
                })
            },
        );
    }
}

fn main() {
    println!("| work | time against plain Rust |");
    println!("|---|---|");
    queues();
    regions();
}
