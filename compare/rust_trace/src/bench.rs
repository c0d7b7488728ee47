//! The harness: it takes a case item by item, lets the Rust run each call, and prints what came of it.
//!
//! The Rust's are all actions, the numbers 1 to 11 and every value. The harness's are
//! - 13: in the Rust no call can be made on a driver that was not built, or while another call runs;
//! - 12: the Rust takes any geometry;
//! - 14 and 16: in the Rust a bus answers what it was asked, or does not come back;
//! - the buffer's filling, and the count of what the bus put there.

use std::panic::{AssertUnwindSafe, catch_unwind};

use case_text::{Call, Dialect, Item, Lent, Quad, read};
use reference::spi_flash::FlashError;

use crate::host::{Code, Host, Stop};
use crate::print;

/// What the caller's buffer holds before a call.
const FILL: u8 = 0xCC;

const OUTSIDE_BOUNDS: u64 = 12;
const OUT_OF_TURN: u64 = 13;
const UNFIT: u64 = 14;
const SPENT: u64 = 16;

/// The settings for the next construction.
#[derive(Clone, Copy, Default)]
pub struct Settings {
    pub quad: Option<Quad>,
    pub own: Option<[u64; 4]>,
}

/// What the Rust answers: the values of a success, or its error.
pub type Answer = Result<Vec<u64>, FlashError<Code>>;

/// One of the Rust's drivers.
pub trait Driver: Sized {
    const DIALECT: Dialect;

    /// Harness: whether a caller's own part is inside the specification's bounds.
    fn inside_bounds(own: [u64; 4]) -> bool;

    /// The Rust's `new`.
    fn new(host: Host) -> Result<Self, FlashError<Code>>;

    /// The Rust's `with_config`.
    fn with_config(host: Host, settings: Settings) -> Result<Self, FlashError<Code>>;

    /// Any other call but `free`, by its name.
    fn call(&mut self, call: &Call, buffer: &mut [u8]) -> Answer;

    /// The Rust's `free`.
    fn free(self);
}

/// The data that a call lends.
pub fn data(call: &Call) -> &[u8] {
    match &call.lent {
        Lent::Data(bytes) => bytes,
        _ => unreachable!("the call takes data"),
    }
}

/// The trace of one case.
pub fn trace<D: Driver>(text: &[u8]) -> String {
    let host = Host::new(read(text, &D::DIALECT));
    let mut bench = Bench::<D> {
        host: host.clone(),
        settings: Settings::default(),
        held: Held::Nothing,
    };
    while let Some(item) = host.next_item() {
        if let Err(BadLine(line)) = bench.take(item) {
            host.log(|log| print::numbers(log, "bad case", &[line as u64]));
            break;
        }
    }
    host.take_log()
}

/// The number of a line that follows no rule.
struct BadLine(usize);

enum Held<D> {
    /// No construction has succeeded, or the driver was given back.
    Nothing,
    Built(D),
    /// A call was left unfinished.
    Unfinished,
}

/// How a call ended.
enum End {
    Answered(Answer),
    Refused(u64),
    Stopped(Stop),
    /// The Rust itself panicked. No trace has such a line, so it shows as a difference.
    Panicked,
}

struct Bench<D> {
    host: Host,
    settings: Settings,
    held: Held<D>,
}

impl<D: Driver> Bench<D> {
    fn take(&mut self, item: Item) -> Result<(), BadLine> {
        match item {
            Item::Quad(quad) => self.settings.quad = quad,
            Item::Own(own) => self.settings.own = own,
            Item::Call(call) => return self.run(&call),
            Item::Bad(line) => return Err(BadLine(line)),
            Item::Reply(_) => unreachable!("replies left over are passed over"),
        }
        Ok(())
    }

    fn run(&mut self, call: &Call) -> Result<(), BadLine> {
        let mut buffer = match call.lent {
            Lent::Buffer(length) => vec![FILL; length],
            _ => vec![],
        };
        self.host.lend(&buffer);
        self.host.log(|log| {
            log.push_str("call ");
            log.push_str(call.name);
        });
        let end = match self.refusal(call) {
            Some(number) => End::Refused(number),
            None => self.run_in_rust(call, &mut buffer),
        };
        self.print_end(end)?;
        if matches!(call.lent, Lent::Buffer(_)) {
            self.print_buffer(&buffer);
        }
        Ok(())
    }

    /// Harness: the refusals that come before the Rust's own, in their order.
    fn refusal(&self, call: &Call) -> Option<u64> {
        match self.held {
            Held::Unfinished => return Some(OUT_OF_TURN),
            Held::Nothing if !is_construction(call) => return Some(OUT_OF_TURN),
            _ => {}
        }
        match self.settings.own {
            Some(own) if call.name == "new" && !D::inside_bounds(own) => Some(OUTSIDE_BOUNDS),
            _ => None,
        }
    }

    /// Runs the call in the Rust, unless a reply stops it.
    fn run_in_rust(&mut self, call: &Call, buffer: &mut [u8]) -> End {
        // While the call runs the driver is away: what is left unfinished is not used again.
        let held = std::mem::replace(&mut self.held, Held::Unfinished);
        let (host, settings) = (self.host.clone(), self.settings);
        let run = AssertUnwindSafe(|| match (call.name, held) {
            ("new", _) => built(D::with_config(host, settings)),
            ("new_single", _) => built(D::new(host)),
            ("free", Held::Built(driver)) => {
                driver.free();
                (Ok(vec![]), Held::Nothing)
            }
            (_, Held::Built(mut driver)) => {
                let answer = driver.call(call, buffer);
                (answer, Held::Built(driver))
            }
            _ => unreachable!("refused before"),
        });
        match catch_unwind(run) {
            Ok((answer, held)) => {
                self.held = held;
                End::Answered(answer)
            }
            Err(payload) => payload
                .downcast_ref()
                .map_or(End::Panicked, |&stop| End::Stopped(stop)),
        }
    }

    fn print_end(&self, end: End) -> Result<(), BadLine> {
        let (number, values) = match end {
            End::Answered(Ok(values)) => (0, values),
            End::Answered(Err(error)) => (number(error), code(error)),
            End::Refused(number) => (number, vec![]),
            End::Stopped(Stop::Unfit) => (UNFIT, vec![]),
            End::Stopped(Stop::Spent) => (SPENT, vec![]),
            End::Stopped(Stop::BadLine(line)) => return Err(BadLine(line)),
            End::Panicked => {
                self.host.log(|log| log.push_str("panic"));
                return Ok(());
            }
        };
        self.host.log(|log| print::numbers(log, "E", &[number]));
        if !values.is_empty() {
            self.host.log(|log| print::numbers(log, "V", &values));
        }
        Ok(())
    }

    fn print_buffer(&self, buffer: &[u8]) {
        let delivered = self.host.delivered() as u64;
        self.host.log(|log| print::numbers(log, "G", &[delivered]));
        self.host.log(|log| print::solid(log, "B", buffer));
    }
}

fn is_construction(call: &Call) -> bool {
    matches!(call.name, "new" | "new_single")
}

fn built<D>(result: Result<D, FlashError<Code>>) -> (Answer, Held<D>) {
    match result {
        Ok(driver) => (Ok(vec![]), Held::Built(driver)),
        Err(error) => (Err(error), Held::Nothing),
    }
}

/// The specification's numbers of the Rust's errors.
fn number(error: FlashError<Code>) -> u64 {
    match error {
        FlashError::Spi(_) => 1,
        FlashError::Timeout => 2,
        FlashError::NotAligned => 3,
        FlashError::InvalidLength => 4,
        FlashError::OutOfBounds => 5,
        FlashError::VerifyFailed => 6,
        FlashError::WriteEnableFailed => 7,
        FlashError::UncorrectableEcc => 8,
        FlashError::EraseFailed => 9,
        FlashError::ProgramFailed => 10,
        FlashError::NotSupported => 11,
    }
}

fn code(error: FlashError<Code>) -> Vec<u64> {
    match error {
        FlashError::Spi(Code(code)) => vec![code.into()],
        _ => vec![],
    }
}
