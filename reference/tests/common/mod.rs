//! What the tests share: fields, and calls and answers written short, with one space between numbers.

use reference_plant::field::{Field, LIST};
use reference_plant::lines::{answer, COLUMNS, LONGEST_ANSWER};
use reference_plant::plant::Plant;
use reference_plant::refusal::Refusal;

#[allow(dead_code)]
pub fn list(members: &[i32]) -> Field {
    let mut values = [0; 6];
    values[..members.len()].copy_from_slice(members);
    Field { kind: LIST, count: members.len() as i32, values }
}

/// The field after the change, or its refusal; a refusal must leave the field as it was.
#[allow(dead_code)]
pub fn after(field: Field, kind: u8, value: i32) -> Result<Field, Refusal> {
    let mut changed = field;
    match changed.make(kind, value) {
        Ok(()) => Ok(changed),
        Err(refusal) => {
            assert_eq!(changed, field);
            Err(refusal)
        }
    }
}

/// The line of a call written short: "5 1 0 0 3 -25" in its columns, without byte 10.
pub fn line(short: &str) -> String {
    let mut words = short.split(' ');
    let mut line = format!("{:>2}", words.next().unwrap());
    for word in words {
        line.push_str(&format!("{word:>width$}", width = COLUMNS));
    }
    line
}

/// A plant that is asked by short lines and answers short.
pub struct Desk {
    pub plant: Plant,
}

#[allow(dead_code)]
impl Desk {
    pub fn new() -> Desk {
        Desk { plant: Plant::new() }
    }

    /// The answer to a line as it stands, with its byte 10.
    pub fn raw(&mut self, line: &[u8]) -> Vec<u8> {
        let mut out = [0; LONGEST_ANSWER];
        let length = answer(&mut self.plant, line, &mut out);
        out[..length].to_vec()
    }

    /// The answer to a call, both short.
    pub fn ask(&mut self, short: &str) -> String {
        let answer = String::from_utf8(self.raw(line(short).as_bytes())).unwrap();
        answer.split_whitespace().collect::<Vec<_>>().join(" ")
    }

    /// Holds the answer of each call to the one expected.
    pub fn expect(&mut self, dialogue: &[(&str, &str)]) {
        for (at, (call, expected)) in dialogue.iter().enumerate() {
            assert_eq!(self.ask(call), *expected, "call {} of the dialogue: {call}", at + 1);
        }
    }

    /// Makes calls that must be accepted; what they answer besides is not looked at.
    pub fn accept(&mut self, calls: &[&str]) {
        for call in calls {
            let answer = self.ask(call);
            assert!(answer == "0" || answer.starts_with("0 "), "{call} was answered {answer}");
        }
    }

    /// Begins a session, makes one change and commits it. Answers the session's number.
    pub fn commit_one(&mut self, change: &str) -> u64 {
        let session: u64 = self.ask("3").strip_prefix("0 ").unwrap().parse().unwrap();
        self.accept(&[&format!("5 {session} {change}"), &format!("6 {session}")]);
        session
    }

    /// Fills the buffer up to 32 sessions; the store and the leases are left as they are.
    pub fn fill_buffer(&mut self) {
        while self.plant.buffer_count < 32 {
            self.commit_one("63 3 1 7");
        }
    }

    /// One worker carries everything that is buffered, without a sweep.
    pub fn carry_all(&mut self, worker: u64) {
        while self.plant.buffer_count > 0 {
            self.accept(&[&format!("9 {worker}"), &format!("10 {worker} 0"), &format!("11 {worker}")]);
        }
    }
}
