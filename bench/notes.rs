// Notes the events of threads in recursions with plain hash maps, and prints a number of all rows:
// `notes FORM DEPTH THREADS EVENTS WHETHER`. It takes stacks to grow downward, and no function to leave another by a jump.
use std::collections::HashMap;
use std::env;
use std::hint::black_box;

const BASE: u32 = 0x1_0000;
const AGAIN: u32 = BASE + 4;
const RETURNED: u32 = BASE + 8;
const LAST: u32 = BASE + 12;
const STACK_TOP: u32 = 0x7ff0_0000;
const BYTES: u32 = 16;
const EVENTS: usize = 13;

type Cost = [u64; EVENTS];

const UNIT: Cost = [1, 0, 0, 0, 0, 0, 0, 0, 0, 0, 0, 0, 0];

#[derive(Clone, Copy, PartialEq, Eq, Hash)]
struct Place {
    func: u32,
    file: u32,
    line: u32,
}

#[derive(Clone, Copy, PartialEq, Eq, Hash)]
struct Arc {
    caller: u32,
    file: u32,
    line: u32,
    callee: u32,
}

#[derive(Clone, Copy)]
enum Flow {
    Plain,
    Call,
    Jump,
}

#[derive(Clone, Copy)]
struct Event {
    thread: u32,
    flow: Flow,
    pc: u32,
    next: u32,
    sp: u32,
}

struct Frame {
    func: u32,
    arc: Option<Arc>,
    returns_to: u32,
    sp: u32,
    start: Cost,
}

struct Account {
    frames: Vec<Frame>,
    total: Cost,
    lines: HashMap<Place, Cost>,
    arcs: HashMap<Arc, (u64, Cost)>,
}

fn add(sums: &mut Cost, cost: &Cost) {
    for (sum, number) in sums.iter_mut().zip(cost) {
        *sum += number;
    }
}

struct Map {
    ranges: Vec<(u32, Place)>,
}

impl Map {
    fn place(&self, pc: u32) -> Place {
        self.ranges[self.ranges.partition_point(|range| range.0 <= pc) - 1].1
    }
}

impl Account {
    fn new(func: u32) -> Account {
        let root = Frame { func, arc: None, returns_to: 0, sp: u32::MAX, start: [0; EVENTS] };
        Account { frames: vec![root], total: [0; EVENTS], lines: HashMap::new(), arcs: HashMap::new() }
    }

    fn pop(&mut self) {
        let Some(frame) = self.frames.pop() else { return };
        let Some(arc) = frame.arc else { return };
        let sums = &mut self.arcs.entry(arc).or_insert((0, [0; EVENTS])).1;
        for (sum, (total, start)) in sums.iter_mut().zip(self.total.iter().zip(frame.start)) {
            *sum += total - start;
        }
    }

    fn push(&mut self, event: &Event, place: Place, func: u32) {
        let caller = self.frames.last().map_or(0, |top| top.func);
        let arc = Arc { caller, file: place.file, line: place.line, callee: func };
        self.arcs.entry(arc).or_insert((0, [0; EVENTS])).0 += 1;
        self.frames.push(Frame {
            func,
            arc: Some(arc),
            returns_to: event.pc + 4,
            sp: event.sp,
            start: self.total,
        });
    }

    fn note(&mut self, event: &Event, cost: &Cost, map: &Map) {
        let place = map.place(event.pc);
        add(self.lines.entry(place).or_insert([0; EVENTS]), cost);
        add(&mut self.total, cost);
        let func = map.place(event.next).func;
        match event.flow {
            Flow::Call => self.push(event, place, func),
            Flow::Jump => {
                while self.frames.last().is_some_and(|top| top.sp < event.sp) {
                    self.pop();
                }
                if self.frames.last().is_some_and(|top| top.sp == event.sp && top.returns_to == event.next) {
                    self.pop();
                }
            }
            Flow::Plain => {
                if self.frames.last().is_some_and(|top| top.func != func) {
                    self.push(event, place, func);
                }
            }
        }
    }

    fn sum(mut self) -> u64 {
        while !self.frames.is_empty() {
            self.pop();
        }
        let lines: u64 = self.lines.values().map(|cost| cost[0]).sum();
        lines + self.arcs.values().map(|(calls, cost)| calls + cost[0]).sum::<u64>()
    }
}

fn step(accounts: &mut HashMap<u32, Account>, event: &Event, map: &Map, is_noted: bool) {
    let Some(account) = accounts.get_mut(&event.thread) else { return };
    let func = map.place(event.pc).func;
    if !account.frames.last().is_some_and(|top| top.func == func) {
        return;
    }
    if is_noted {
        account.note(event, &UNIT, map);
    }
}

fn main() {
    let words: Vec<String> = env::args().collect();
    let number = |place: usize| words[place].parse::<u32>().unwrap();
    let (depth, threads, events, is_noted) = (number(2), number(3), number(4), number(5) == 1);
    let place = |k: u32| Place { func: k / 4 + 1, file: 1, line: k + 1 };
    let map = Map { ranges: (0..8).map(|k| (BASE + 4 * k, place(k))).collect() };
    let mut accounts = HashMap::new();
    let call = |thread, sp| Event { thread, flow: Flow::Call, pc: AGAIN, next: BASE, sp };
    for thread in 1..=threads {
        accounts.insert(thread, Account::new(map.place(BASE).func));
        for k in 0..depth {
            step(&mut accounts, &call(thread, STACK_TOP - k * BYTES), &map, true);
        }
    }
    let sp = STACK_TOP - depth * BYTES;
    for turn in 0..events {
        let thread = turn % threads + 1;
        let jump = Event { thread, flow: Flow::Jump, pc: LAST, next: RETURNED, sp };
        let plain = Event { thread, flow: Flow::Plain, pc: AGAIN, next: RETURNED, sp };
        let repeated = match words[1].as_str() {
            "calls" => [call(thread, sp), jump],
            _ => [plain, Event { pc: RETURNED, next: AGAIN, ..plain }],
        };
        step(&mut accounts, black_box(&repeated[(turn / threads % 2) as usize]), &map, is_noted);
    }
    println!("{}", accounts.into_values().map(Account::sum).sum::<u64>());
}
