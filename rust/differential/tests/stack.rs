//! How much stack a call takes: no more than `FAREY_STACK` of `include/farey.h`.
//!
//! Each call runs on a thread whose stack was filled with one byte. What is
//! changed afterwards, down to the lowest byte, was used; what a thread uses
//! that makes no call is taken off. That is a measurement, on the largest
//! inputs and on refused ones, and no proof.
//!
//!     cargo test --release --offline -p differential --test stack -- --nocapture
//!
//! prints the numbers.

use std::alloc::{alloc, dealloc, Layout};
use std::ffi::c_void;
use std::hint::black_box;
use std::path::Path;
use std::ptr;

use farey::calls;
use reference::random::drafts::{draft_of_size, many_cusps};
use reference::random::matrices::{any_pair, far};
use reference::random::pairs::{dice_pair, shallow_pair, zigzag_pair};
use reference::random::Rng;

/// What a thread's stack is filled with.
const PAINT: u8 = 0xA5;
/// The whole stack of a thread: 1 MiB.
const STACK: usize = 1 << 20;
const PAGE: usize = 4096;
/// The symbols of each size that are asked about.
const ROUNDS: usize = 12;
/// A family's number and an N for each round.
const NAMES: [(u64, u64); ROUNDS] = [
    (0, 990),
    (0, 840),
    (1, 90),
    (1, 72),
    (2, 20),
    (2, 18),
    (0, 119),
    (1, 12),
    (2, 5),
    (0, 1),
    (2, 19),
    (0, 0),
];

/// Either named query with its sign.
type SignedQuery = fn(
    u64,
    u64,
    &[i64; 4],
    &[i64; 4],
    &mut [u16],
    &mut [i16],
    usize,
    &mut i64,
) -> Result<usize, farey::Refusal>;

/// `pthread_attr_t` of x86-64 Linux has 56 bytes.
#[repr(C)]
struct Attributes([u64; 7]);

extern "C" {
    fn pthread_attr_init(attributes: *mut Attributes) -> i32;
    fn pthread_attr_setstack(attributes: *mut Attributes, stack: *mut c_void, size: usize) -> i32;
    fn pthread_create(
        thread: *mut usize,
        attributes: *const Attributes,
        start: extern "C" fn(*mut c_void) -> *mut c_void,
        argument: *mut c_void,
    ) -> i32;
    fn pthread_join(thread: usize, answer: *mut *mut c_void) -> i32;
}

/// Runs the job that the argument points to.
extern "C" fn start(argument: *mut c_void) -> *mut c_void {
    // SAFETY: `used` hands over such a pointer, and waits for this thread.
    let job = unsafe { &mut *argument.cast::<&mut dyn FnMut()>() };
    job();
    ptr::null_mut()
}

/// How many bytes of its stack a thread changes that does the job.
fn used(job: &mut dyn FnMut()) -> usize {
    let layout = Layout::from_size_align(STACK, PAGE).expect("a size and a page");
    let mut job = job;
    // SAFETY: the stack is ours and nobody else's while the thread runs, and it
    // is read only when the thread has ended.
    unsafe {
        let stack = alloc(layout);
        assert!(!stack.is_null());
        ptr::write_bytes(stack, PAINT, STACK);
        let mut attributes = Attributes([0; 7]);
        assert_eq!(pthread_attr_init(&mut attributes), 0);
        assert_eq!(
            pthread_attr_setstack(&mut attributes, stack.cast(), STACK),
            0
        );
        let mut thread = 0;
        let argument = ptr::addr_of_mut!(job).cast();
        assert_eq!(pthread_create(&mut thread, &attributes, start, argument), 0);
        assert_eq!(pthread_join(thread, ptr::null_mut()), 0);
        let bytes = std::slice::from_raw_parts(stack, STACK);
        let untouched = bytes.iter().take_while(|&&byte| byte == PAINT).count();
        dealloc(stack, layout);
        STACK - untouched
    }
}

/// The most stack that each call took.
#[derive(Default)]
struct Most(Vec<(&'static str, usize)>);

impl Most {
    fn add(&mut self, call: &'static str, bytes: usize) {
        match self.0.iter_mut().find(|(name, _)| *name == call) {
            Some((_, most)) => *most = bytes.max(*most),
            None => self.0.push((call, bytes)),
        }
    }
}

/// The number that the header gives: that of the run's own repository, which
/// cargo names, and not of the one in which this test was compiled.
fn promised() -> usize {
    let here = std::env::var("CARGO_MANIFEST_DIR").expect("cargo runs the tests");
    let header = Path::new(&here).join("../../include/farey.h");
    let header = std::fs::read_to_string(header).expect("the header can be read");
    let line = header
        .lines()
        .find_map(|line| line.strip_prefix("#define FAREY_STACK "));
    let number = line.expect("the header has FAREY_STACK");
    number.trim().parse().expect("it is a number")
}

#[test]
fn calls_stay_within_the_stack_that_the_header_names() {
    let mut rng = Rng::new(11);
    let mut most = Most::default();
    let nothing = used(&mut || {
        black_box(0);
    });
    let mut work = vec![0; calls::WORK];
    let mut generators = vec![0; calls::GENERATORS];
    let mut table = vec![0; calls::TABLE];
    let mut columns = [(); 3].map(|()| vec![0; calls::COSETS]);
    let mut word = vec![0; 20_000];
    let mut lines = vec![0; 4 * calls::SHEET];
    let mut floats = vec![0.0; calls::DRAWING];
    for (round, &(family, n)) in NAMES.iter().enumerate() {
        let draft = match round {
            0..=5 => draft_of_size(&mut rng, 1_023),
            6..=8 => many_cusps(&mut rng),
            _ => draft_of_size(&mut rng, 1 + round),
        };
        let v = draft.v();
        let mut t = draft.numbers()[1..].to_vec();
        // The last round has a symbol that is refused.
        if round + 1 == ROUNDS {
            t[2 * v] = 0;
        }
        let mut measure = |call: &'static str, job: &mut dyn FnMut()| {
            most.add(call, used(job) - nothing);
        };
        measure("farey_check", &mut || {
            let _ = black_box(calls::check(v, &t));
        });
        measure("farey_generators", &mut || {
            let _ = black_box(calls::generators(v, &t, &mut work, &mut generators));
        });
        measure("farey_figures", &mut || {
            let _ = black_box(calls::figures(v, &t, &mut work, &mut [0; 8]));
        });
        measure("farey_widths", &mut || {
            let _ = black_box(calls::widths(v, &t, &mut work, &mut columns[0]));
        });
        let [s, r, u] = &mut columns;
        measure("farey_tables", &mut || {
            let _ = black_box(calls::tables(v, &t, &mut work, s, r, u));
        });
        measure("farey_cusps", &mut || {
            let _ = black_box(calls::cusps(v, &t, &mut work, s, r));
        });
        let one = [1, 0, 0, 1];
        let (a, b) = match round % 2 {
            0 => (one, far(&mut rng).0.map(|entry| entry as i64)),
            _ => any_pair(&mut rng, true),
        };
        measure("farey_query", &mut || {
            let _ = black_box(calls::query(v, &t, &a, &b, &mut work, &mut word, 0));
        });
        let mut sign = 0;
        measure("farey_signed_query", &mut || {
            let (work, word) = (&mut work, &mut word);
            let _ = black_box(calls::signed_query(v, &t, &a, &b, work, word, 0, &mut sign));
        });
        // The same pair again and again, in lines and letters for all of them.
        let pairs: Vec<i64> = [a, b].concat().repeat(calls::SHEET);
        measure("farey_sheet", &mut || {
            let (work, lines) = (&mut work, &mut lines);
            let _ = black_box(calls::sheet(v, &t, &pairs, work, lines, &mut word));
        });
        measure("farey_same_coset", &mut || {
            let _ = black_box(calls::same_coset(v, &t, &a, &b, &mut work));
        });
        measure("farey_same_cosets", &mut || {
            let (work, lines) = (&mut work, &mut lines);
            let _ = black_box(calls::same_cosets(v, &t, &pairs, work, lines));
        });
        let power = [1, 1_000_000_000_000_000_000, 0, 1];
        measure("farey_matrix_word", &mut || {
            let _ = black_box(calls::matrix_word(v, &t, &power, &mut work, &mut word, 0));
        });
        measure("farey_signed_matrix_word", &mut || {
            let (work, word) = (&mut work, &mut word);
            let _ = black_box(calls::signed_matrix_word(v, &t, &b, work, word, 0, &mut sign));
        });
        measure("farey_contains_matrix", &mut || {
            let _ = black_box(calls::contains_matrix(v, &t, &power, &mut work));
        });
        measure("farey_same", &mut || {
            let _ = black_box(calls::same(v, &t, v, &t, &mut work));
        });
        measure("farey_contains", &mut || {
            let _ = black_box(calls::contains(v, &t, v, &t, &mut work));
        });
        // With itself, as many points as cosets: at most 3,066, or 24.
        let [s, r, k] = &mut columns;
        measure("farey_intersection", &mut || {
            let _ = black_box(calls::intersection(v, &t, v, &t, &mut work, s, r, k));
        });
        // Each in the one before it.
        let tower: Vec<i64> = (0..8)
            .flat_map(|i| [&[i - 1, v as i64], &t[..]].concat())
            .collect();
        measure("farey_tower", &mut || {
            let _ = black_box(calls::tower(8, &tower, &mut work));
        });
        measure("farey_drawing", &mut || {
            let _ = black_box(calls::drawing(v, &t, &mut floats, &mut [0.0; 4]));
        });
        // Two labels of the symbol, where it has two.
        let mut labels = t[2 * v..].iter().copied().filter(|&x| x > 0);
        let first = labels.next().unwrap_or(1);
        let second = labels.find(|&x| x != first).unwrap_or(2);
        measure("farey_exchange", &mut || {
            let _ = black_box(calls::exchange(v, &t, first, second, &mut table));
        });
        measure("farey_preview", &mut || {
            let (widths, out) = (&mut columns[0], &mut [0; 8]);
            let asked = calls::preview(v, &t, first, second, &mut work, widths, out);
            let _ = black_box(asked);
        });
        let pair = match round {
            0..=5 => shallow_pair(&mut rng, 1_023),
            6..=8 => dice_pair(&mut rng, 3_066),
            _ => zigzag_pair(&mut rng, 30),
        };
        let points = |column: &[i64]| column.iter().map(|&x| x as u32).collect::<Vec<u32>>();
        let (s, r) = (points(&pair.s), points(&pair.r));
        measure("farey_import", &mut || {
            let _ = black_box(calls::import(&s, &r, &mut work, &mut table));
        });
        measure("farey_import_wide", &mut || {
            let _ = black_box(calls::import_wide(&s, &r, &mut work, &mut table));
        });
        measure("farey_import_length", &mut || {
            let _ = black_box(calls::import_length(&s, &r));
        });
        let mut written = vec![0; 40_000];
        let mut length = 0;
        measure("farey_write_cycles", &mut || {
            length = black_box(farey::cycles::write(&s, &r, &mut written)).unwrap_or(0);
        });
        // The whole text, and one that stops short.
        for text in [&written[..length], &written[..length.saturating_sub(1)]] {
            let [s, r, _] = &mut columns;
            measure("farey_read_cycles", &mut || {
                let _ = black_box(farey::cycles::read(text, s, r));
            });
        }
        // The largest indices of each family, entries over 10^9, small groups, an
        // index over the limit and an N out of range.
        let [s, r, _] = &mut columns;
        measure("farey_named_tables", &mut || {
            let _ = black_box(calls::named_tables(family, n, &mut work, s, r));
        });
        measure("farey_named_symbol", &mut || {
            let _ = black_box(calls::named_symbol(family, n, &mut work, &mut table));
        });
        measure("farey_named_symbol_wide", &mut || {
            let _ = black_box(calls::named_symbol_wide(family, n, &mut work, &mut table));
        });
        let to = [1, 0, 5 * n as i64, 1];
        for (a, b) in [(a, b), (one, to)] {
            measure("farey_named_query", &mut || {
                let asked = calls::named_query(family, n, &a, &b, &mut work, &mut word, 0);
                let _ = black_box(asked);
            });
            measure("farey_named_query_wide", &mut || {
                let asked = calls::named_query_wide(family, n, &a, &b, &mut work, &mut word, 0);
                let _ = black_box(asked);
            });
            for (call, ask) in [
                (
                    "farey_named_signed_query",
                    calls::named_signed_query as SignedQuery,
                ),
                (
                    "farey_named_signed_query_wide",
                    calls::named_signed_query_wide,
                ),
            ] {
                measure(call, &mut || {
                    let (work, word) = (&mut work, &mut word);
                    let _ = black_box(ask(family, n, &a, &b, work, word, 0, &mut sign));
                });
            }
        }
    }
    assert_eq!(most.0.len(), 33);
    let promised = promised();
    println!("a thread by itself: {nothing}; FAREY_STACK: {promised}");
    for (call, bytes) in most.0 {
        println!("{call}: {bytes}");
        // Something is used: the measurement isn't of an empty job.
        assert!(bytes > 0, "{call}");
        assert!(bytes <= promised, "{call} takes {bytes} bytes of stack");
    }
}
