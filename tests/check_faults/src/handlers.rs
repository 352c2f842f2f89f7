//! Handlers of vendors' messages, through the hub.

use crate::scripts::{BOOTED, events, hub_of, run};
use hub::Fault;
use ocpp_types::{DataTransferStatus, Mem, NoMemory, Text};
use station_calls::{VendorAnswer, VendorHandler};
use std::alloc::Global;
use std::cell::Cell;
use std::test::Fail;
use store_mem::MemStore;

/// Answers each message of its vendor alike.
#[derive(Drop)]
pub struct Fixed {
    alloc: Global,
    vendor: &'static str,
    content: &'static str,
    /// Whether the next answer finds no memory.
    refuses: Cell<bool>,
}

impl VendorHandler for Fixed {
    ghost use Rattle.std.specs.Prelude.{Some};
    ghost use Rattle.ocpp_types.specs.declared.data_transfer_status.DataTransferStatus.TheVariants.{Accepted};

    ghost view = { λ h. record { name = h.vendor.now; gives = λ _ _. record { status = Accepted; content = Some h.content.now } } };

    fn vendor(&self) -> &str {
        self.vendor
    }

    fn answer(&self, _message: Option<&str>, _content: Option<&str>) -> Mem<VendorAnswer> {
        if self.refuses.replace(false) {
            return Err(NoMemory);
        }
        Ok(VendorAnswer {
            status: DataTransferStatus::Accepted,
            content: Some(Text::copy_of(self.alloc, self.content)?),
        })
    }
}

fn handler_of(alloc: Global, vendor: &'static str, content: &'static str, refuses: bool) -> Fixed {
    Fixed {
        alloc,
        vendor,
        content,
        refuses: Cell::new(refuses),
    }
}

/// Two handlers of V, the second of which is never asked, and one of W.
pub fn handlers(alloc: Global, refuses: bool) -> Mem<Vec<Fixed>> {
    let mut vendors = Vec::new(alloc);
    vendors.push(handler_of(alloc, "V", "first", refuses))?;
    vendors.push(handler_of(alloc, "V", "second", false))?;
    vendors.push(handler_of(alloc, "W", "third", false))?;
    Ok(vendors)
}

/// Messages of the vendors V, W and v.
pub const MESSAGES: &str =
    r#"1704067200 ACME frame CP01 [2,"3","DataTransfer",{"vendorId":"V","messageId":"m"}]
1704067200 ACME frame CP01 [2,"4","DataTransfer",{"vendorId":"W"}]
1704067200 ACME frame CP01 [2,"5","DataTransfer",{"vendorId":"v"}]
"#;

const ANSWERS: &str = r#"ACME CP01 send [3,"3",{"data":"first","status":"Accepted"}]
ACME CP01 send [3,"4",{"data":"third","status":"Accepted"}]
ACME CP01 send [3,"5",{"status":"UnknownVendorId"}]
"#;

#[test]
fn a_message_that_found_no_memory_can_be_handed_again(rt: HostRuntime) -> Result<(), Fail> {
    let alloc = rt.alloc();
    let mut hub = hub_of(alloc, MemStore::new(alloc), handlers(alloc, true)?)?;
    let booted = run(alloc, &mut hub, events(alloc, BOOTED)?.as_slice())?;
    assert!(rt; booted.taken == 4 && booted.fault.is_none());
    let messages = events(alloc, MESSAGES)?;
    let met = run(alloc, &mut hub, messages.as_slice())?;
    assert!(rt; met.taken == 0 && met.fault == Some(Fault::NoMemory));
    let again = run(alloc, &mut hub, messages.as_slice())?;
    assert_eq!(rt; again.text.as_str(), ANSWERS);
    Ok(())
}
