//! A port reads a frame in both formats, is flushed by a message that arrives cut and then whole, and
//! ages: each call with its answer and the table after it.
//!
//!     cargo run --offline --locked --example port

use shinglebar::{
    Aged, Compacted, Found, Label, Mac, Outer, Received, Refusal, Sent, Settings, RECORD_LENGTH,
};

const PORT: Settings = Settings {
    port: Mac([0x02, 0, 0, 0, 0, 0xA1]),
    inner: Mac([0x02, 0, 0, 0, 0, 0xB1]),
    nickname: 0x0102,
    compact: true,
    confidence: 20,
    seconds: 0,
    multihomed: 0,
    smart: false,
};

const SOURCE: Mac = Mac([0x02, 0, 0, 0, 0, 0x01]);

/// A General frame from the switch 1234: outer addresses, TRILL header, inner addresses, VLAN 10,
/// content.
const GENERAL: [u8; 40] = [
    0x02, 0, 0, 0, 0, 0xA1, 0x02, 0, 0, 0, 0, 0xB2, 0x22, 0xF3, 0x00, 0x05, 0x01, 0x02, 0x12, 0x34,
    0x02, 0, 0, 0, 0, 0x0D, 0x02, 0, 0, 0, 0, 0x01, 0x81, 0x00, 0x00, 0x0A, 0x08, 0x00, 0x45, 0x00,
];

/// An Address Flush of VLAN 10: nickname 1234, no VLAN blocks, a TLV of type 1 with one block.
const PAYLOAD: [u8; 10] = [0x01, 0x12, 0x34, 0x00, 0x01, 0x04, 0x00, 0x0A, 0x00, 0x0A];

/// A flush from the switch 5678 to all switches of VLAN 1: outer addresses, TRILL header with M set,
/// inner addresses, label, channel header, payload.
fn flush_frame(payload: &[u8]) -> Vec<u8> {
    let mut frame = vec![0x01, 0x80, 0xC2, 0x00, 0x00, 0x40, 0x02, 0, 0, 0, 0, 0xB2];
    frame.extend([0x22, 0xF3, 0x08, 0x05, 0x01, 0x03, 0x56, 0x78]);
    frame.extend([0x01, 0x80, 0xC2, 0x00, 0x00, 0x42, 0x02, 0, 0, 0, 0, 0x02]);
    frame.extend([0x81, 0x00, 0x00, 0x01, 0x89, 0x46, 0x00, 0x09, 0x00, 0x00]);
    frame.extend(payload);
    frame
}

fn hex(bytes: &[u8]) -> String {
    let pairs: Vec<String> = bytes.iter().map(|byte| format!("{byte:02X}")).collect();
    pairs.join(" ")
}

fn refused(refusal: Refusal) -> String {
    format!("refusal {}: {refusal}", refusal.number())
}

fn received(outcome: Result<Received, Refusal>, out: &[u8]) -> String {
    match outcome {
        Ok(Received::Onward) => "onward".to_owned(),
        Ok(Received::Delivered {
            length,
            learning,
            label,
        }) => format!(
            "{learning}; delivered in {label}, {length} bytes: {}",
            hex(&out[..length])
        ),
        Ok(Received::OtherChannel) => "another channel's message".to_owned(),
        Ok(Received::Flushed { count }) => format!("flushed, {count} cleared"),
        Err(refusal) => refused(refusal),
    }
}

struct Port {
    table: Vec<u8>,
}

impl Port {
    fn show(&self, call: &str, answer: &str) {
        println!("{call}\n    answer  {answer}");
        for (slot, record) in self.table.chunks(RECORD_LENGTH).enumerate() {
            println!("    slot {slot}  {}", hex(record));
        }
    }

    fn receive(&mut self, call: &str, frame: &[u8]) {
        let mut out = [0; 64];
        let outcome = shinglebar::receive(&PORT, frame, &mut self.table, &mut out);
        self.show(call, &received(outcome, &out));
    }

    fn look_up(&self) {
        let answer = match shinglebar::lookup(Label::Vlan(10), SOURCE, &self.table) {
            Ok(Found::Nickname(nickname)) => format!("behind switch {nickname:04X}"),
            Ok(Found::None) => "not known".to_owned(),
            Err(refusal) => refused(refusal),
        };
        println!("{SOURCE} in VLAN 10 is looked up\n    answer  {answer}");
    }
}

fn main() {
    let mut port = Port {
        table: vec![0; 2 * RECORD_LENGTH],
    };
    port.receive("A General frame of 40 bytes comes in", &GENERAL);
    port.look_up();

    let mut compact = [0; 28];
    let outcome = shinglebar::compact(&PORT, &GENERAL, &mut compact);
    assert_eq!(outcome, Ok(Compacted { length: 28 }));
    port.receive("The same frame comes in compacted, 28 bytes", &compact);

    let cut = flush_frame(&PAYLOAD[..8]);
    port.receive("A flush of VLAN 10 comes in, cut inside its block", &cut);
    port.receive("The same flush comes in whole", &flush_frame(&PAYLOAD));
    port.look_up();

    port.receive("The General frame comes in again", &GENERAL);
    let aged = shinglebar::age(1200, &mut port.table);
    assert_eq!(aged, Ok(Aged));
    port.show("1,200 seconds pass", "done");

    let mut work = [0; shinglebar::COMPACT_LENGTH_MAX];
    for (far, name) in [(true, "on"), (false, "off")] {
        let far = Settings {
            compact: far,
            ..PORT
        };
        let answer = match shinglebar::send(&far, &GENERAL, &mut work) {
            Ok(sent @ Sent::Compacted { .. }) => {
                format!("compacted, {}", hex(sent.bytes(&GENERAL, &work)))
            }
            Ok(Sent::Itself) => "the frame itself".to_owned(),
            Err(refusal) => refused(refusal),
        };
        println!("The frame is to be sent to a port with Compact {name}\n    answer  {answer}");
    }

    let outer = Outer {
        source: Mac([0x01, 0, 0x5E, 0, 0, 0x01]),
        tag: None,
    };
    let answer = match shinglebar::expand(&PORT, &outer, &compact, &mut work) {
        Ok(expanded) => format!("{} bytes", expanded.length),
        Err(refusal) => refused(refusal),
    };
    println!(
        "The compacted frame is to be expanded with source {}\n    answer  {answer}",
        outer.source
    );
}
