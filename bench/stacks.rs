// Follows the events of a recursion with a plain vector of frames, and prints a number of all that came and went:
// `stacks FORM BYTES DEPTH EVENTS`. It takes stacks to grow downward, and no function to leave another by a jump.
use std::env;
use std::hint::black_box;

const BASE: u32 = 0x1_0000;
const AGAIN: u32 = BASE + 4;
const RETURNED: u32 = BASE + 8;
const LAST: u32 = BASE + 12;
const STACK_TOP: u32 = 0x7ff0_0000;

type Cost = [u64; 13];

#[derive(Clone, Copy)]
enum Flow {
    Plain,
    Call,
    Jump,
}

#[derive(Clone, Copy)]
struct Event {
    flow: Flow,
    pc: u32,
    next: u32,
    sp: u32,
}

struct Frame {
    func: usize,
    caller: usize,
    returns_to: u32,
    sp: u32,
    start: Cost,
}

struct Walk {
    starts: Vec<u32>,
    frames: Vec<Frame>,
    total: Cost,
    told: u64,
    instructions: u64,
}

impl Walk {
    fn function(&self, addr: u32) -> usize {
        self.starts.partition_point(|start| *start <= addr)
    }

    fn pop(&mut self) {
        if let Some(frame) = self.frames.pop() {
            self.told += 1;
            let mut cost = self.total;
            for (sum, start) in cost.iter_mut().zip(frame.start) {
                *sum -= start;
            }
            black_box((frame.func, frame.caller));
            self.instructions += black_box(cost)[0];
        }
    }

    fn push(&mut self, event: &Event, func: usize) {
        let caller = self.function(event.pc);
        self.told += 1;
        self.frames.push(Frame { func, caller, returns_to: event.pc + 4, sp: event.sp, start: self.total });
    }

    fn step(&mut self, event: &Event) {
        self.total[0] += 1;
        let func = self.function(event.next);
        match event.flow {
            Flow::Call => self.push(event, func),
            Flow::Jump => {
                while self.frames.last().is_some_and(|top| top.sp < event.sp) {
                    self.pop();
                }
                if self.frames.last().is_some_and(|top| top.sp == event.sp && top.returns_to == event.next) {
                    self.pop();
                }
            }
            Flow::Plain => {
                if self.frames.last().is_some_and(|top| top.func != func) {
                    self.push(event, func);
                }
            }
        }
    }
}

fn main() {
    let words: Vec<String> = env::args().collect();
    let number = |place: usize| words[place].parse::<u32>().unwrap();
    let (bytes, depth, events) = (number(2), number(3), number(4));
    let pointer_at = |k: u32| STACK_TOP.wrapping_sub(k.wrapping_mul(bytes));
    let call = |sp| Event { flow: Flow::Call, pc: AGAIN, next: BASE, sp };
    let starts = vec![BASE, BASE + 16];
    let mut walk = Walk { starts, frames: Vec::new(), total: [0; 13], told: 0, instructions: 0 };
    for k in 0..depth {
        walk.step(&call(pointer_at(k)));
    }
    let sp = pointer_at(depth.wrapping_sub(1));
    let below = sp.wrapping_sub(bytes);
    let jump = Event { flow: Flow::Jump, pc: LAST, next: AGAIN, sp: below };
    let level = Event { sp, ..jump };
    let plain = Event { flow: Flow::Plain, pc: AGAIN, next: RETURNED, sp: below };
    let repeated = match words[1].as_str() {
        "calls" => [call(below), Event { next: RETURNED, ..jump }],
        "jumps" => [jump, jump],
        "level" => [level, level],
        _ => [plain, plain],
    };
    for turn in 0..events {
        walk.step(black_box(&repeated[turn as usize % 2]));
    }
    println!("{}", walk.frames.len() as u64 + 1 + walk.told + walk.instructions);
}
