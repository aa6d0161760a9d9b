//! Document 01's P1 on lent tables: a VM of two harts and two hardware harts. It prints what the trace program prints.
use oudrameng::{
    ConfidentialHartId, ConfidentialHartRemoteCommand, ConfidentialVm, EFFECT_WORDS, Error, HART_WORDS, HEAD_WORDS, HardwareHartId,
    MOST_COMMANDS, MOST_REGIONS, QUEUE_WORDS, REGION_WORDS, Reply, Resumed, Setup, effects,
};

const HARTS: usize = 2;
const HARDWARE_HARTS: usize = 2;

/// Prints a number, and of an answer that has one its value.
fn print(answer: Result<Option<u64>, Error>) {
    match answer {
        Ok(None) => println!("0"),
        Ok(Some(value)) => println!("0\t{value}"),
        Err(error) => println!("{}", error.number()),
    }
}

/// Prints the effects before an answer.
fn print_effects<T>(given: Reply<T>, room: &[u64]) -> Result<T, Error> {
    for effect in effects(room, given.did) {
        let [kind, mask, base, start, size, tag] = effect.command.numbers();
        println!("did\t{}\t{kind}\t{mask}\t{base}\t{start}\t{size}\t{tag}", effect.hart.0);
    }
    given.answer
}

fn main() {
    let mut vm = ConfidentialVm {
        head: &mut [0; HEAD_WORDS],
        home: &mut [0; HARTS * HART_WORDS],
        hardware: &mut [0; HARDWARE_HARTS * HART_WORDS],
        queues: &mut [0; HARTS * QUEUE_WORDS],
        regions: &mut [0; MOST_REGIONS * REGION_WORDS],
    };
    let mut room = [0; MOST_COMMANDS * EFFECT_WORDS];
    let [hart_0, hart_1] = [0, 1].map(ConfidentialHartId);
    let [hardware_0, hardware_1] = [0, 1].map(HardwareHartId);
    let ipi = ConfidentialHartRemoteCommand::ipi(3, 0);

    let setup = Setup { harts: 2, hardware: 2, boot: hart_0, a1: 4096, mepc: 8192, vsatp: 0, vsstatus: 0 };
    print(vm.set_up(&setup).map(|()| None));
    print(vm.steal_confidential_hart(hart_0, hardware_0).map(Some));
    // The same hart does not run twice, and one that was never started does not run.
    print(vm.steal_confidential_hart(hart_0, hardware_1).map(Some));
    print(vm.steal_confidential_hart(hart_1, hardware_1).map(Some));
    print(vm.start_confidential_hart(hart_1, 64, 7).map(|()| None));
    // Hart 0 does the command itself. Hart 1 is at home, then on hardware hart 1, which is to be interrupted.
    print(print_effects(vm.confidential_flow(hardware_0).broadcast_remote_command(&ipi, &mut room), &room).map(Some));
    print(vm.steal_confidential_hart(hart_1, hardware_1).map(Some));
    print(print_effects(vm.confidential_flow(hardware_0).broadcast_remote_command(&ipi, &mut room), &room).map(Some));
    match print_effects(vm.confidential_flow(hardware_1).resume_confidential_hart_execution(&mut room), &room) {
        Ok(Resumed::Run) => println!("0\trun"),
        Ok(Resumed::Off) => println!("0\toff"),
        Ok(Resumed::Operation(operation)) => println!("0\top\t{}\t{}\t{}", operation.kind, operation.x, operation.y),
        Err(error) => println!("{}", error.number()),
    }
    print(vm.return_confidential_hart(hardware_0).map(|()| None));
}
