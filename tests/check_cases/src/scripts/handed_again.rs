//! Events that end in a fault and are handed once more.

use anyhow::{Result, bail};
use hub::{Event, Hub, Out};
use hub_rows::Store;
use lines::{Line, print_out, read_line};
use ocpp_types::{Mem, Text};
use station_calls::Echo;
use std::alloc::Global;

/// What the events of a script are answered.
#[derive(Drop)]
pub struct Answers {
    alloc: Global,
    /// The lines of the outputs.
    pub text: String,
    /// How many events ended in a fault at first.
    pub faults: u64,
}

/// What the lines of a script are answered over the store, where each event that ends in a fault is handed once more.
/// So is all else that finds no memory. Messages of vendors aren't answered.
pub fn hand_all<S: Store + Drop>(
    alloc: Global,
    store: S,
    operators: Vec<Text>,
    lines: &[u8],
) -> Result<Answers> {
    let hosted = copies(alloc, &operators)?;
    let Ok(mut hub) = Hub::new(alloc, store, operators, no_vendors(alloc)) else {
        bail!("the operators can't be hosted")
    };
    let mut answers = Answers {
        alloc,
        text: String::new(alloc),
        faults: 0,
    };
    for line in lines.split(|byte| *byte == b'\n') {
        answers.line(&mut hub, &hosted, line)?;
    }
    Ok(answers)
}

fn no_vendors(alloc: Global) -> Vec<Echo> {
    Vec::new(alloc)
}

fn copies(alloc: Global, operators: &[Text]) -> Mem<Vec<Text>> {
    let mut copies = Vec::new(alloc);
    for operator in operators {
        copies.push(operator.clone()?)?;
    }
    Ok(copies)
}

impl Answers {
    /// Hands the event of a line to the hub.
    fn line<S: Store + Drop>(
        &mut self,
        hub: &mut Hub<S, Echo>,
        hosted: &[Text],
        line: &[u8],
    ) -> Result<()> {
        let said = match read_line(self.alloc, hosted, line) {
            Ok(said) => said,
            Err(_) => read_line(self.alloc, hosted, line)?,
        };
        match said {
            Line::Event(event) => self.event(hub, &event),
            Line::Nothing => Ok(()),
            Line::Bad => bail!("a bad line"),
        }
    }

    fn event<S: Store + Drop>(&mut self, hub: &mut Hub<S, Echo>, event: &Event) -> Result<()> {
        let outs = match hub.handle(event) {
            Ok(outs) => outs,
            Err(_) => {
                self.faults = self.faults.saturating_add(1);
                hub.handle(event)?
            }
        };
        for out in &outs {
            if self.out(out).is_err() {
                self.out(out)?;
            }
        }
        Ok(())
    }

    /// Adds the line of an output, or nothing where there is no memory for it.
    fn out(&mut self, out: &Out) -> Mem<()> {
        let line = print_out(self.alloc, out)?;
        self.text.reserve(line.len().saturating_add(1))?;
        self.text.push_str(line.as_str())?;
        self.text.push('\n')?;
        Ok(())
    }
}
