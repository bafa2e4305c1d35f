//! A counter that hears of instructions, and single events beside whole runs.
use crate::machines::{LIMIT, clean};
use crate::rows::short_rows;
use std::test::Fail;
use tb_cpu::{Counter, Regs, run_counting};
use tb_engines::start_regs;
use tb_kernal::{Quiet, Status, run};
use tb_memmap::Memory;

/// Where the instructions begin.
const START: u16 = 0x1000;

/// LDX #3, INX, STX $C000, and BRK, which has no short way.
const CODE: [u8; 7] = [0xa2, 3, 0xe8, 0x8e, 0x00, 0xc0, 0x00];

/// How many instructions it may hear of.
const MOST: usize = 4;

/// Notes the address of each instruction, and X before it.
#[derive(Drop)]
struct Log {
    heard: [(u16, u8); MOST],
    count: usize,
}

impl Counter for Log {
    ghost use Rattle.std.specs.Prelude.{◌-◌, ◌%◌};

    ghost cost_of = { λ regs _. regs.x % 8 };

    ghost counts = { λ _ _ _ _. Unit {0} };

    ghost room = { λ log. 4 - log.count };

    fn look(&self, regs: &Regs, _memory: &Memory) -> u8 {
        regs.x % 8
    }

    fn hear(&mut self, pc: u16, cost: u8) {
        self.heard[self.count] = (pc, cost);
        self.count += 1;
    }
}

#[test]
fn a_counter_hears_of_each_instruction_in_order(rt: HostRuntime) -> Result<(), Fail> {
    let rows = [
        // the limit, the address to which the program returns, how many instructions are done
        (4, 0xa000, 3),
        (2, 0xa000, 2),
        (0, 0xa000, 0),
        (4, 0x1002, 1),
        (4, START, 0),
    ];
    let all = [(0x1000, 0), (0x1002, 3), (0x1003, 4)];
    for (limit, home, many) in rows {
        let mut memory = Memory::new(rt.alloc())?;
        memory.load(START, &CODE)?;
        let mut regs = Regs {
            x: 0,
            ..start_regs(START)
        };
        let mut log = Log {
            heard: [(0, 0); MOST],
            count: 0,
        };
        let done = run_counting(&mut regs, &mut memory, home, &mut log, limit);
        assert_eq!(rt; done, many);
        assert_eq!(rt; log.count as u64, many);
        for index in 0..3 {
            if (index as u64) < many {
                assert_eq!(rt; log.heard[index], all[index]);
            }
        }
        assert_eq!(rt;
            memory.read(0xc000).ok(),
            Some(if many == 3 { 4 } else { 0 })
        );
    }
    Ok(())
}

#[test]
fn single_events_make_the_run(rt: HostRuntime) -> Result<(), Fail> {
    for row in short_rows() {
        let program = row.compiled(rt.alloc())?;
        let mut whole = row.machine(rt.alloc(), &program, &clean())?;
        let mut single = row.machine(rt.alloc(), &program, &clean())?;
        run(&mut whole, &mut Quiet, LIMIT)?;
        for _ in 0..LIMIT {
            if single.status() != Status::Running {
                break;
            }
            single.go_once()?;
        }
        assert_eq!(rt; single.status(), whole.status());
        assert_eq!(rt; single.regs(), whole.regs());
        assert_eq!(rt; single.sent(), whole.sent());
    }
    Ok(())
}
