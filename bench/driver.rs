// Calls ours and the twin on the same words: first with many random operations, where answer, tables
// and actions must agree and every refusal, error and function must occur, then once for each kind of
// operation that is counted.
// Writes 'KIND HARTS SIDE ' before each counted operation; what counts adds the number.
#![no_std]
#![no_main]

#[path = "driver/system.rs"]
mod system;
use system::{counted_since, counted_until, number, stop, write};

type Platform = [u64; 29];
type Rows = [[u64; 12]; 128];
type Actions = [u64; 640];
type Out = [u64; 5];

// The exports of a side, for both.
macro_rules! exports {
    ($($test:ident $fresh:ident $call:ident $completion:ident $wake:ident $event:ident;)*) => {
        extern "C" {$(
            fn $test(p: &Platform, t: &Rows) -> bool;
            fn $fresh(p: &Platform, t: &mut Rows, out: &mut Out);
            fn $call(
                p: &Platform,
                t: &mut Rows,
                a: *mut u64,
                room: usize,
                h: u64,
                r: &[u64; 8],
                out: &mut Out,
            );
            fn $completion(
                p: &Platform,
                t: &mut Rows,
                a: *const u64,
                room: usize,
                h: u64,
                out: &mut Out,
            );
            fn $wake(p: &Platform, t: &mut Rows, a: *mut u64, room: usize, h: u64, out: &mut Out);
            fn $event(p: &Platform, t: &mut Rows, h: u64, code: u64, out: &mut Out);
        )*}
    };
}
exports! {
    ours_test ours_fresh ours_call ours_completion ours_wake ours_event;
    twin_test twin_fresh twin_call twin_completion twin_wake twin_event;
}

// ---- operations on both sides

#[derive(Clone, Copy)]
enum Side {
    Ours,
    Twin,
}

#[derive(Clone, Copy)]
enum Operation {
    Test,
    Fresh,
    Call { h: u64, r: [u64; 8] },
    Completion { h: u64 },
    Wake { h: u64 },
    Event { h: u64, code: u64 },
}
use Operation::*;

#[derive(Clone, Copy, PartialEq)]
struct World {
    t: Rows,
    a: Actions,
    out: Out,
}

#[inline(never)]
fn act(side: Side, p: &Platform, w: &mut World, room: usize, o: Operation) {
    let a = w.a.as_mut_ptr();
    unsafe {
        match (side, o) {
            (Side::Ours, Test) => w.out[0] = ours_test(p, &w.t) as u64,
            (Side::Twin, Test) => w.out[0] = twin_test(p, &w.t) as u64,
            (Side::Ours, Fresh) => ours_fresh(p, &mut w.t, &mut w.out),
            (Side::Twin, Fresh) => twin_fresh(p, &mut w.t, &mut w.out),
            (Side::Ours, Call { h, r }) => ours_call(p, &mut w.t, a, room, h, &r, &mut w.out),
            (Side::Twin, Call { h, r }) => twin_call(p, &mut w.t, a, room, h, &r, &mut w.out),
            (Side::Ours, Completion { h }) => ours_completion(p, &mut w.t, a, room, h, &mut w.out),
            (Side::Twin, Completion { h }) => twin_completion(p, &mut w.t, a, room, h, &mut w.out),
            (Side::Ours, Wake { h }) => ours_wake(p, &mut w.t, a, room, h, &mut w.out),
            (Side::Twin, Wake { h }) => twin_wake(p, &mut w.t, a, room, h, &mut w.out),
            (Side::Ours, Event { h, code }) => ours_event(p, &mut w.t, h, code, &mut w.out),
            (Side::Twin, Event { h, code }) => twin_event(p, &mut w.t, h, code, &mut w.out),
        }
    }
}

fn agree(ours: &World, twin: &World) {
    if ours != twin {
        write("the twin answers, leaves or lays something else\n");
        stop(1);
    }
}

// ---- the worlds

fn platform(harts: u32) -> Platform {
    let enabled = if harts == 4 { [15, 0] } else { [u64::MAX, u64::MAX] };
    let mut p = [0; 29];
    p[0] = enabled[0];
    p[1] = enabled[1];
    p[2] = enabled[0];
    p[3] = enabled[1];
    p[5] = 2;
    p[6..10].copy_from_slice(&[0x80000000, 0x10000000, 0x100000000, 0x40000000]);
    p[22] = 16;
    p[23] = 14;
    for i in 24..29 {
        p[i] = i as u64;
    }
    p
}

// Every enabled hart STARTED, but hart 1 STOPPED, hart 2 in START_PENDING and hart 3 in a
// non-retentive sleep; each has counter 0 running on the reported code 2, 1 on the received, 2 on
// the sent interrupt, and 3 stopped. With all_started every enabled hart is STARTED.
fn world(p: &Platform, all_started: bool) -> World {
    let mut w = World { t: [[0; 12]; 128], a: [0; 640], out: [0; 5] };
    for h in 0..128 {
        w.t[h][0] = 4;
        if p[h / 64] >> (h % 64) & 1 != 0 {
            w.t[h][0] = 2;
            w.t[h][3] = 25 | 30 << 8 | 29 << 16 | 3 << 24;
        }
    }
    if !all_started {
        w.t[1][0] = 4;
        w.t[2][0] = 6;
        w.t[3][..3].copy_from_slice(&[11, 0x80000000, 77]);
    }
    w
}

const BASE: u64 = 0x10;
const IPI: u64 = 0x735049;
const RFENCE: u64 = 0x52464E43;
const HSM: u64 = 0x48534D;
const PMU: u64 = 0x504D55;

fn call(eid: u64, fid: u64, a: [u64; 5]) -> Operation {
    Call { h: 0, r: [a[0], a[1], a[2], a[3], a[4], 0, fid, eid] }
}

// ---- agreement

struct Random(u64);

impl Random {
    fn next(&mut self) -> u64 {
        self.0 = self.0.wrapping_mul(6364136223846793005).wrapping_add(1442695040888963407);
        self.0 >> 33 ^ self.0 << 31
    }
    fn below(&mut self, n: u64) -> u64 {
        (self.next() >> 8) % n
    }
    fn of(&mut self, list: &[u64]) -> u64 {
        list[self.below(list.len() as u64) as usize]
    }
}

fn word(x: &mut Random, harts: u64) -> u64 {
    match x.below(8) {
        0 => x.next(),
        1 => x.of(&[u64::MAX, u64::MAX - 1, 1 << 63, 1 << 32, 0x80000000, 0x80000002, 0x100000004]),
        2 => 1 << x.below(64),
        3 => x.below(256),
        4 => 0xF0000 + x.below(24),
        5 => x.below(harts),
        6 => x.below(16),
        _ => 0,
    }
}

fn address(x: &mut Random) -> u64 {
    x.of(&[0x80000000, 0x8ffffffe, 0x100000000, 0x13ffffffe, 0x90000000, 0x80000001, 0, u64::MAX])
}

// Registers of a call that is often, but not always, accepted.
fn registers(x: &mut Random, harts: u64) -> [u64; 8] {
    let mut r = [0; 8];
    for i in 0..6 {
        r[i] = word(x, harts);
    }
    r[6] = x.below(9);
    r[7] = x.of(&[BASE, IPI, RFENCE, RFENCE, HSM, HSM, PMU, PMU, PMU, 7]);
    if x.below(8) == 0 {
        return r;
    }
    match r[7] {
        IPI | RFENCE => {
            r[0] = x.next() & x.next() & if harts == 4 { 15 } else { u64::MAX };
            r[1] = x.of(&[0, 0, 1, 63, 64, 65, 100, 127, 128, u64::MAX, u64::MAX - 1]);
            r[3] = x.of(&[0, 4096, 1 << 63, u64::MAX - 1, u64::MAX]);
            r[4] = x.of(&[0, 1, 0x3fff, 0x4000, 0xffff, 0x10000]);
            r[6] = if r[7] == IPI { 0 } else { x.below(7) };
        }
        HSM => {
            r[0] = if x.below(2) == 0 { x.of(&[0, 0x80000000, 1 << 32]) } else { x.below(harts) };
            r[1] = address(x);
            r[6] = x.below(4);
        }
        PMU => {
            r[0] = x.below(9);
            r[1] = x.of(&[0, 1, 1, 2, 3, 5, 255, 256]);
            r[2] = x.of(&[0, 1, 2, 3, 4, 5, 7, 255, 256]);
            if r[6] == 2 {
                r[3] = 0xF0000 + x.below(24);
                r[4] = x.below(8) / 7;
            }
        }
        _ => {}
    }
    r
}

fn operation(x: &mut Random, harts: u64) -> Operation {
    let h = if x.below(16) == 0 { x.below(140) } else { x.below(harts) };
    match x.below(16) {
        0 | 1 => Completion { h },
        2 => Wake { h },
        3 => Event { h, code: x.below(7) },
        4 => Test,
        5 if x.below(16) == 0 => Fresh,
        _ => Call { h, r: registers(x, harts) },
    }
}

// Any well-formed tables, with many harts STARTED.
fn scramble(x: &mut Random, p: &Platform, t: &mut Rows) {
    for h in 0..128 {
        t[h] = [0; 12];
        t[h][0] = 4;
        if p[h / 64] >> (h % 64) & 1 != 0 {
            t[h][0] = if x.below(4) == 0 { 2 + x.below(14) } else { 2 };
            t[h][1] = address(x);
            t[h][2] = x.next();
            for i in 0..8 {
                t[h][3] |= x.of(&[0, 1, 3, 22, 23, 25, 29, 30, 31, 33, 44]) << (8 * i);
                t[h][4 + i] = word(x, 128);
            }
        }
    }
}

// Which refusals, errors and accepted calls have occurred: a bit for H1 to H6, for -2 to -9, and for
// each function of each extension.
fn occurred(o: Operation, out: &Out) -> u64 {
    match (o, *out) {
        (Test, _) => 0,
        (_, [1, k, ..]) => 1 << k,
        (Call { r, .. }, [_, 0, ..]) => match r[7] {
            BASE => 1 << (20 + r[6]),
            IPI => 1 << 27,
            RFENCE => 1 << (28 + r[6]),
            HSM => 1 << (35 + r[6]),
            _ => 1 << (39 + r[6]),
        },
        (Call { .. }, [_, error, ..]) => 1 << (8 + 0u64.wrapping_sub(error)),
        (Completion { .. }, _) => 1 << 46,
        (Wake { .. }, [.., n]) => 1 << (47 + n),
        (Event { .. }, _) => 1 << 49,
        (Fresh, _) => 1 << 50,
    }
}

// H1 to H6, -2, -3 and -5 to -9, and everything from bit 20 to 50.
const ALL: u64 = 0x7e | 0b11 << 10 | 0b11111 << 13 | (1 << 51) - (1 << 20);

fn compare(harts: u32, seed: u64, count: u32) -> u64 {
    let mut x = Random(seed);
    let mut p = platform(harts);
    let mut ours = world(&p, false);
    let mut twin = ours;
    let mut seen = 0;
    for n in 0..count {
        if n % 16 == 0 {
            scramble(&mut x, &p, &mut ours.t);
            twin.t = ours.t;
        }
        let o = operation(&mut x, harts as u64);
        let room = if x.below(64) == 0 { x.below(640) as usize } else { 640 };
        // now and then a word of the tables or of the platform is another
        let (h, i) = (x.below(128) as usize, x.of(&[0, 0, 1, 2, 3, 3, 3, 3, 4, 11]) as usize);
        if x.below(32) == 0 {
            ours.t[h][i] = match i {
                0 => x.of(&[0, 1, 2, 4, 5, 15, 16, 17, u64::MAX]),
                3 => x.of(&[44, 45, 46, 127, 128, 255]) << (8 * x.below(8)),
                _ => word(&mut x, harts as u64),
            };
            twin.t[h][i] = ours.t[h][i];
        }
        let kept = p;
        if x.below(32) == 0 {
            p[x.below(24) as usize] = word(&mut x, harts as u64);
        }
        act(Side::Ours, &p, &mut ours, room, o);
        act(Side::Twin, &p, &mut twin, room, o);
        agree(&ours, &twin);
        seen |= occurred(o, &ours.out);
        p = kept;
    }
    seen
}

// ---- counts

fn count(name: &str, harts: u32, o: Operation, all_started: bool) {
    let p = platform(harts);
    let before = world(&p, all_started);
    let mut after = [before; 2];
    for side in [Side::Ours, Side::Twin] {
        let w = &mut after[side as usize];
        write(name);
        write(" ");
        number(harts as u64);
        write([" ours ", " twin "][side as usize]);
        counted_since();
        act(side, &p, w, 640, o);
        counted_until();
    }
    agree(&after[0], &after[1]);
}

fn counts(harts: u32) {
    count("test", harts, Test, false);
    count("fresh", harts, Fresh, false);
    count("event", harts, Event { h: 0, code: 2 }, false);
    count("completion", harts, Completion { h: 2 }, false);
    count("wake", harts, Wake { h: 3 }, false);
    count("version", harts, call(BASE, 0, [0; 5]), false);
    count("status", harts, call(HSM, 2, [1, 0, 0, 0, 0]), false);
    count("start", harts, call(HSM, 0, [1, 0x100000000, 7, 0, 0]), false);
    count("stop", harts, call(HSM, 1, [0; 5]), false);
    count("suspend_retentive", harts, call(HSM, 3, [0; 5]), false);
    count("suspend", harts, call(HSM, 3, [0x80000000, 0x100000000, 7, 0, 0]), false);
    count("interrupt_0", harts, call(IPI, 0, [0; 5]), true);
    count("interrupt_1", harts, call(IPI, 0, [2, 0, 0, 0, 0]), true);
    count("interrupt_3", harts, call(IPI, 0, [14, 0, 0, 0, 0]), true);
    if harts == 128 {
        count("interrupt_127", harts, call(IPI, 0, [0, u64::MAX, 0, 0, 0]), false);
    }
    count("sfence_vma_0", harts, call(RFENCE, 1, [0, 0, 0x1000, 0x2000, 0]), true);
    count("sfence_vma_1", harts, call(RFENCE, 1, [2, 0, 0x1000, 0x2000, 0]), true);
    count("sfence_vma_3", harts, call(RFENCE, 1, [14, 0, 0x1000, 0x2000, 0]), true);
    count("hfence_gvma_0", harts, call(RFENCE, 4, [0, 0, 0x1000, 0x2000, 0]), true);
    count("hfence_gvma_3", harts, call(RFENCE, 4, [14, 0, 0x1000, 0x2000, 0]), true);
    count("counter_read", harts, call(PMU, 5, [0; 5]), false);
    count("configure", harts, call(PMU, 2, [0, 255, 6, 0xF0002, 0]), false);
    count("counter_start", harts, call(PMU, 3, [3, 1, 1, 9, 0]), false);
    count("counter_stop", harts, call(PMU, 4, [0, 1, 0, 0, 0]), false);
}

#[no_mangle]
extern "C" fn begin() -> ! {
    for harts in [4, 128] {
        let mut seen = 0;
        for seed in 1..5 {
            seen |= compare(harts, seed, COMPARED);
        }
        if seen & ALL != ALL {
            write("some refusal, error or accepted call did not occur\n");
            stop(1);
        }
    }
    counts(4);
    counts(128);
    stop(0)
}

// How many operations of each of four seeds are compared.
const COMPARED: u32 = 5000;

core::arch::global_asm!(".globl _start", "_start:", "and rsp, -16", "call begin");

#[no_mangle]
extern "C" fn rust_eh_personality() {}
