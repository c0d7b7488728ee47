//! The bus, select pin and delay that the Rust is built on. Each action is logged, each bus action
//! answered by the next reply of the script.

use std::cell::RefCell;
use std::convert::Infallible;
use std::ops::Range;
use std::panic::resume_unwind;
use std::rc::Rc;
use std::vec::IntoIter;

use case_text::{Item, Reply};
use embedded_hal::delay::DelayNs;
use embedded_hal::{digital, spi};
use reference::qspi::QuadSpiBus;

use crate::print;

/// The error code of a bus.
#[derive(Clone, Copy, Debug, PartialEq, Eq)]
pub struct Code(pub u8);

impl spi::Error for Code {
    fn kind(&self) -> spi::ErrorKind {
        spi::ErrorKind::Other
    }
}

/// Why a call cannot go on. It leaves the Rust by unwinding: the Rust knows no call that stays unfinished.
#[derive(Clone, Copy, Debug, PartialEq, Eq)]
pub enum Stop {
    /// The reply is of another kind or length than the action wants.
    Unfit,
    /// No reply is left.
    Spent,
    /// The next line of the case follows no rule.
    BadLine(usize),
}

struct State {
    log: String,
    script: IntoIter<Item>,
    /// The addresses of the caller's buffer. The Rust reads into arrays of its own too.
    lent: Range<usize>,
    delivered: usize,
}

/// One host; its copies are the same host.
#[derive(Clone)]
pub struct Host(Rc<RefCell<State>>);

impl Host {
    pub fn new(items: Vec<Item>) -> Self {
        Self(Rc::new(RefCell::new(State {
            log: String::new(),
            script: items.into_iter(),
            lent: 0..0,
            delivered: 0,
        })))
    }

    /// Notes where the caller's buffer lies; nothing has been delivered to it yet.
    pub fn lend(&self, buffer: &[u8]) {
        let range = buffer.as_ptr_range();
        let mut state = self.0.borrow_mut();
        state.lent = range.start.addr()..range.end.addr();
        state.delivered = 0;
    }

    /// How many bytes the bus has put into the caller's buffer.
    pub fn delivered(&self) -> usize {
        self.0.borrow().delivered
    }

    /// The next item of the case that is no reply: replies left over are passed over.
    pub fn next_item(&self) -> Option<Item> {
        let mut state = self.0.borrow_mut();
        state.script.find(|item| !matches!(item, Item::Reply(_)))
    }

    /// Adds a line to the log.
    pub fn log(&self, line: impl FnOnce(&mut String)) {
        let log = &mut self.0.borrow_mut().log;
        line(log);
        log.push('\n');
    }

    pub fn take_log(&self) -> String {
        std::mem::take(&mut self.0.borrow_mut().log)
    }

    fn next_reply(&self) -> Reply {
        let mut state = self.0.borrow_mut();
        let next = state.script.as_slice().first();
        match next {
            Some(Item::Reply(_)) => {}
            Some(Item::Bad(line)) => stop(Stop::BadLine(*line)),
            _ => stop(Stop::Spent),
        }
        match state.script.next() {
            Some(Item::Reply(reply)) => reply,
            _ => unreachable!("the next item is a reply"),
        }
    }

    /// The answer to an action that sends.
    fn sent(&self) -> Result<(), Code> {
        match self.next_reply() {
            Reply::Done => Ok(()),
            Reply::Error(code) => Err(Code(code)),
            Reply::Data(_) => stop(Stop::Unfit),
        }
    }

    /// The answer to an action that reads.
    fn received(&self, words: &mut [u8]) -> Result<(), Code> {
        match self.next_reply() {
            Reply::Data(bytes) if bytes.len() == words.len() => {
                words.copy_from_slice(&bytes);
                self.count(words);
                Ok(())
            }
            Reply::Error(code) => Err(Code(code)),
            _ => stop(Stop::Unfit),
        }
    }

    fn count(&self, words: &[u8]) {
        let mut state = self.0.borrow_mut();
        if state.lent.contains(&words.as_ptr().addr()) {
            state.delivered += words.len();
        }
    }
}

fn stop(stop: Stop) -> ! {
    resume_unwind(Box::new(stop))
}

impl digital::ErrorType for Host {
    type Error = Infallible;
}

impl digital::OutputPin for Host {
    fn set_low(&mut self) -> Result<(), Infallible> {
        self.log(|log| log.push('L'));
        Ok(())
    }

    fn set_high(&mut self) -> Result<(), Infallible> {
        self.log(|log| log.push('H'));
        Ok(())
    }
}

impl DelayNs for Host {
    fn delay_ns(&mut self, _: u32) {
        unreachable!("the drivers ask for microseconds");
    }

    fn delay_us(&mut self, us: u32) {
        self.log(|log| print::numbers(log, "D", &[us.into()]));
    }
}

impl spi::ErrorType for Host {
    type Error = Code;
}

impl spi::SpiBus for Host {
    fn read(&mut self, words: &mut [u8]) -> Result<(), Code> {
        self.log(|log| print::numbers(log, "R", &[words.len() as u64]));
        self.received(words)
    }

    fn write(&mut self, words: &[u8]) -> Result<(), Code> {
        self.log(|log| print::bytes(log, "W", words));
        self.sent()
    }

    fn transfer(&mut self, _: &mut [u8], _: &[u8]) -> Result<(), Code> {
        unreachable!("the drivers never send and receive at once");
    }

    fn transfer_in_place(&mut self, _: &mut [u8]) -> Result<(), Code> {
        unreachable!("the drivers never send and receive at once");
    }

    fn flush(&mut self) -> Result<(), Code> {
        unreachable!("the drivers never flush");
    }
}

impl QuadSpiBus for Host {
    fn read_quad(
        &mut self,
        command: &[u8],
        tclqv_ns: u32,
        margin: u8,
        data: &mut [u8],
    ) -> Result<(), Code> {
        self.log(|log| {
            print::bytes(log, "Q", command);
            let numbers = [tclqv_ns.into(), margin.into(), data.len() as u64];
            print::numbers(log, " :", &numbers);
        });
        self.received(data)
    }

    fn write_quad(&mut self, command: &[u8], data: &[u8]) -> Result<(), Code> {
        self.log(|log| {
            print::bytes(log, "P", command);
            print::bytes(log, " :", data);
        });
        self.sent()
    }
}
