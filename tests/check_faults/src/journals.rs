//! A writer of a journal that is stopped at each byte: what is left says, with the number of changes on record, which events
//! were taken.

use journal::{Entry, JournalFile, Tail, Writer, ends_turn, read_entry, tail_of};
use lines::read_event;
use ocpp_types::Text;
use std::alloc::Global;
use std::cell::RefCell;
use std::io::{Result as IoResult, Write};
use std::mem;
use std::rc::Rc;
use std::test::Fail;

/// What becomes of an event.
#[derive(Clone, Copy, PartialEq, Eq)]
enum Fate {
    Changes,
    ChangesNothing,
    IsRefused,
    /// It changes nothing, and the turn ends after it.
    EndsTurn,
    /// The same, and the changes of the turn aren't committed.
    EndsLost,
    /// The turn ends, and the next file begins.
    EndsFile,
}

const DAY: [(&str, Fate); 15] = [
    ("1 ACME connect CP01", Fate::ChangesNothing),
    ("2 ACME connect CP02", Fate::EndsTurn),
    ("3 ACME tag put TAG1 - 0 -", Fate::Changes),
    ("3 ACME tag put TAG2 - 0 -", Fate::Changes),
    ("4 ACME list tags", Fate::ChangesNothing),
    ("4 ACME tag put TAG3 - 0 -", Fate::IsRefused),
    ("5 ACME list tags", Fate::EndsTurn),
    ("6 ACME tag put TAG4 - 0 -", Fate::Changes),
    (
        "7 ACME frame CP01 [2,\"1\",\"Heartbeat\",{}]",
        Fate::EndsLost,
    ),
    ("7 ACME tag put TAG4 - 0 -", Fate::Changes),
    ("7 ACME disconnect CP02", Fate::EndsTurn),
    ("7 ACME connect CP02", Fate::EndsFile),
    ("8 ACME connect CP02", Fate::ChangesNothing),
    ("9 ACME tag drop TAG1", Fate::Changes),
    ("9 ACME disconnect CP01", Fate::EndsTurn),
];

/// A file in memory, whose bytes the test sees.
#[derive(Drop)]
struct Sheet(Rc<RefCell<Vec<u8>>>);

impl Write for Sheet {
    fn write(&mut self, buf: &[u8]) -> IoResult<usize> {
        if let Ok(mut bytes) = self.0.try_borrow_mut() {
            bytes.extend_from_slice(buf)?;
        }
        Ok(buf.len())
    }

    fn flush(&mut self) -> IoResult<()> {
        Ok(())
    }
}

impl JournalFile for Sheet {
    fn sync(&mut self) -> IoResult<()> {
        Ok(())
    }
}

/// A day of a server: its writer, what its file has, and the events that were taken.
#[derive(Drop)]
struct Day {
    alloc: Global,
    bytes: Rc<RefCell<Vec<u8>>>,
    writer: Writer<Sheet>,
    /// How many bytes were looked at.
    seen: usize,
    /// Those of earlier turns.
    taken: Vec<&'static str>,
    /// Those of this turn.
    now: Vec<&'static str>,
    /// How many changes are on record, and how many were made.
    on_record: u64,
    made: u64,
}

fn hosted(alloc: Global) -> Result<Vec<Text>, Fail> {
    let mut names = Vec::new(alloc);
    names.push(Text::copy_of(alloc, "ACME")?)?;
    Ok(names)
}

impl Day {
    fn begin(alloc: Global) -> Result<Day, Fail> {
        let bytes = Rc::new(alloc, RefCell::new(Vec::new(alloc)))?;
        let file = Sheet(Rc::clone(&bytes)?);
        let writer = Writer::begin_server(alloc, file, true, &Tail::new(), 40, "ACME")?;
        Ok(Day {
            alloc,
            bytes,
            writer,
            seen: 0,
            taken: Vec::new(alloc),
            now: Vec::new(alloc),
            on_record: 40,
            made: 40,
        })
    }

    /// Each part of what was written since the last look says that the events of earlier turns were taken. Whole it may say
    /// so of those of this turn too, where they changed nothing.
    fn look(&mut self) -> Result<(), Fail> {
        let bytes = self.bytes.try_borrow()?;
        for end in self.seen..=bytes.len() {
            let told = told(self.alloc, &bytes[..end], self.on_record)?;
            let Some(told) = told else {
                return Err(Fail::from("the journal doesn't fit the records"));
            };
            let all = self.taken.len() + self.now.len();
            let is_all = end == bytes.len() && self.made == self.on_record && told.len() == all;
            if told.len() != self.taken.len() && !is_all {
                return Err(Fail::from("another number of events is told"));
            }
            let events = self.taken.iter().chain(self.now.iter());
            for (event, line) in told.iter().zip(events) {
                if event.as_slice() != line.as_bytes() {
                    return Err(Fail::from("another event is told"));
                }
            }
        }
        self.seen = bytes.len();
        Ok(())
    }

    fn hand(&mut self, line: &'static str, fate: Fate) -> Result<(), Fail> {
        let Some(event) = read_event(self.alloc, hosted(self.alloc)?.as_slice(), line)? else {
            return Err(Fail::from("no event"));
        };
        let order = line.splitn(3, ' ').nth(2).unwrap_or("");
        self.writer.begin(&event, order)?;
        if fate != Fate::IsRefused {
            self.writer.take();
            self.now.push(line)?;
        }
        if fate == Fate::Changes {
            self.made += 1;
        }
        self.look()?;
        match fate {
            Fate::EndsTurn => self.end_turn(),
            Fate::EndsLost => self.end_lost(),
            Fate::EndsFile => self.end_file(),
            Fate::Changes | Fate::ChangesNothing | Fate::IsRefused => Ok(()),
        }
    }

    /// The journal has the turn before it is committed, and with its changes on record it counts.
    fn end_turn(&mut self) -> Result<(), Fail> {
        self.writer.end_turn(self.made)?;
        self.look()?;
        let bytes = self.bytes.try_borrow()?;
        let told = told(self.alloc, bytes.as_slice(), self.made)?;
        if told.map(|told| told.len()) != Some(self.taken.len() + self.now.len()) {
            return Err(Fail::from("an event is not told"));
        }
        self.on_record = self.made;
        self.writer.settle(self.made);
        self.taken.append(&mut self.now)?;
        Ok(())
    }

    /// The changes of the turn aren't on record, and the server begins again.
    fn end_lost(&mut self) -> Result<(), Fail> {
        self.writer.end_turn(self.made)?;
        self.look()?;
        self.made = self.on_record;
        self.now.clear();
        self.writer.begin_again("ACME")?;
        self.look()
    }

    /// The next file begins.
    fn end_file(&mut self) -> Result<(), Fail> {
        self.end_turn()?;
        self.writer.confirm()?;
        self.look()?;
        let bytes = Rc::new(self.alloc, RefCell::new(Vec::new(self.alloc)))?;
        self.writer.continue_in(Sheet(Rc::clone(&bytes)?), "ACME")?;
        self.bytes = bytes;
        self.taken.clear();
        self.seen = 0;
        self.look()
    }
}

/// A journal as far as it was read.
#[derive(Drop)]
struct Reading {
    told: Vec<Vec<u8>>,
    held: Vec<Vec<u8>>,
    after: u64,
    waiting: Vec<Vec<u8>>,
    lines: Vec<u8>,
}

impl Reading {
    /// So many changes were on record.
    fn confirm(&mut self, alloc: Global, changes: u64) -> Result<(), Fail> {
        let mut held = mem::replace(&mut self.held, Vec::new(alloc));
        if changes == self.after {
            self.told.append(&mut held)?;
        }
        Ok(())
    }

    fn pass(&mut self, alloc: Global, line: &[u8]) -> Result<(), Fail> {
        match read_entry(alloc, hosted(alloc)?.as_slice(), line)? {
            Entry::Event(_) => {
                let mut event = Vec::new(alloc);
                event.extend_from_slice(line)?;
                self.waiting.push(event)?;
                self.lines.extend_from_slice(line)?;
                self.lines.push(b'\n')?;
            }
            Entry::Turn {
                events,
                before,
                after,
                digest,
            } => {
                let number = self.waiting.len() as u64;
                assert_turn(
                    alloc,
                    number,
                    self.lines.as_slice(),
                    events,
                    digest.as_str(),
                )?;
                self.confirm(alloc, before)?;
                mem::swap(&mut self.held, &mut self.waiting);
                self.after = after;
                self.lines.clear();
            }
            Entry::Begins { changes, .. } | Entry::Continues { changes, .. } => {
                self.confirm(alloc, changes)?;
                self.after = changes;
                self.waiting.clear();
                self.lines.clear();
            }
            Entry::Taken { .. } | Entry::Bad => {}
        }
        Ok(())
    }
}

fn assert_turn(
    alloc: Global,
    number: u64,
    lines: &[u8],
    events: u64,
    digest: &str,
) -> Result<(), Fail> {
    if ends_turn(alloc, number, lines, events, digest)? {
        Ok(())
    } else {
        Err(Fail::from("a mark of other lines"))
    }
}

/// The lines of the events that a journal says were taken, where so many changes are on record. `None`: it doesn't fit.
fn told(alloc: Global, journal: &[u8], changes: u64) -> Result<Option<Vec<Vec<u8>>>, Fail> {
    let mut reading = Reading {
        told: Vec::new(alloc),
        held: Vec::new(alloc),
        after: 0,
        waiting: Vec::new(alloc),
        lines: Vec::new(alloc),
    };
    let end = journal
        .iter()
        .rposition(|byte| *byte == b'\n')
        .map_or(0, |at| at);
    for line in journal[..end].split(|byte| *byte == b'\n') {
        reading.pass(alloc, line)?;
    }
    let mut reader = journal;
    let tail = tail_of(alloc, &mut reader)?;
    if !tail.fits(changes) {
        return Ok(None);
    }
    reading.confirm(alloc, changes)?;
    Ok(Some(reading.told))
}

#[test]
fn a_stop_at_each_byte_leaves_what_is_on_record(rt: HostRuntime) -> Result<(), Fail> {
    let mut day = Day::begin(rt.alloc())?;
    day.look()?;
    for (line, fate) in DAY {
        day.hand(line, fate)?;
    }
    Ok(())
}

#[test]
fn a_cut_line_is_ended_as_a_server_begins(rt: HostRuntime) -> Result<(), Fail> {
    let alloc = rt.alloc();
    for left in [
        "begins 40 ACME\n3 ACME tag put TAG1 - 0 -\n4 ACME li",
        "begins 40 ACME\n3 ACME tag put TAG1 - 0 -\ntur",
        "begin",
    ] {
        let mut reader = left.as_bytes();
        let tail = tail_of(alloc, &mut reader)?;
        let bytes = Rc::new(alloc, RefCell::new(Vec::new(alloc)))?;
        let before = told(alloc, left.as_bytes(), 40)?.map(|told| told.len());
        let mut file = Sheet(Rc::clone(&bytes)?);
        file.write_all(left.as_bytes())?;
        let _writer = Writer::begin_server(alloc, file, false, &tail, 40, "ACME")?;
        let bytes = bytes.try_borrow()?;
        for end in left.len()..=bytes.len() {
            let after = told(alloc, &bytes[..end], 40)?.map(|told| told.len());
            assert_eq!(rt; after, before, "{end}");
        }
    }
    Ok(())
}
