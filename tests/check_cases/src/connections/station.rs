//! A simulated station over a client's connection.

use crate::connections::client::SampleKey;
use crate::connections::server::Server;
use anyhow::{Result, bail};
use ocpp_types::{Moment, Text};
use station_sim::{Drove, Script, Sim, drive};
use std::alloc::Global;
use std::net::TcpStream;
use tungstenite::WebSocket;

/// The most calls of a session.
const MAX_CALLS: u64 = 100;

/// A client's simulated station.
#[derive(Drop)]
pub struct Station {
    pub name: String,
    sim: Sim,
}

impl Station {
    /// A station with the session of `central sim`.
    pub fn new(alloc: Global, name: &str) -> Result<Station> {
        match Sim::new(alloc, session(alloc)?) {
            Ok(sim) => Ok(Station {
                name: name.to_string(alloc)?,
                sim,
            }),
            Err(field) => bail!("{field}"),
        }
    }

    /// Drives it once: what it called, read and replied, `-` where it did none of these.
    pub fn drive(
        &mut self,
        alloc: Global,
        socket: &mut WebSocket<TcpStream, SampleKey>,
        moment: Moment,
    ) -> Result<String> {
        match drive(&mut self.sim, socket, moment) {
            Ok(drove) => described(alloc, &drove),
            Err(fault) => Ok(format!(in alloc; "fault {fault}")?),
        }
    }

    /// Runs its session over the hub alone, as that station: how many calls it made.
    pub fn run(&mut self, alloc: Global, server: &mut Server, op: &str) -> Result<u64> {
        for calls in 0..MAX_CALLS {
            let Some(call) = self.sim.step(server.moment())? else {
                return Ok(calls);
            };
            let frame = format!(in alloc; "{op} frame {} {call}", self.name)?;
            let sent = format!(in alloc; "{op} {} send ", self.name)?;
            for line in &server.ask(frame.as_str())? {
                if let Some(text) = line.as_str().strip_prefix(sent.as_str()) {
                    let _reply = self.sim.on_text(text)?;
                }
            }
        }
        Ok(MAX_CALLS)
    }

    /// Whether its session has ended.
    pub fn is_done(&self) -> bool {
        self.sim.done()
    }
}

fn session(alloc: Global) -> Result<Script> {
    let mut readings = Vec::new(alloc);
    readings.push(500)?;
    readings.push(1000)?;
    Ok(Script {
        vendor: Text::copy_of(alloc, "SimVendor")?,
        model: Text::copy_of(alloc, "SimModel")?,
        tag: Text::copy_of(alloc, "SIM1")?,
        connector: 1,
        meter_start: 0,
        readings,
        energy: 1000,
        sessions: 1,
        stays: false,
    })
}

fn described(alloc: Global, drove: &Drove) -> Result<String> {
    let mut text = String::new(alloc);
    add(&mut text, " > ", drove.call.as_deref())?;
    add(
        &mut text,
        " < ",
        drove.read.as_ref().map(|text| text.as_str()),
    )?;
    add(&mut text, " > ", drove.reply.as_deref())?;
    if text.is_empty() {
        text.push_str(" -")?;
    }
    Ok(format!(in alloc; "drove{text}")?)
}

fn add(text: &mut String, mark: &str, part: Option<&str>) -> Result<()> {
    if let Some(part) = part {
        text.push_str(mark)?;
        text.push_str(part)?;
    }
    Ok(())
}
