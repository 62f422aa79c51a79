//! One face for both drives.

use gladhamre::{raw, Answer, Lent};
use plain::Fault;

/// A drive that answers commands over state images and lent buffers.
pub trait Drive: Sync {
    fn name(&self) -> String;

    /// Writes the image of a blank disc; gives 0 or the refusal's number.
    fn blank(&self, capacity: u32, image: &mut [u32]) -> u32;

    /// Answers one command.
    fn command(&self, image: &mut [u32], lent: Lent) -> Answer;
}

/// The proved drive of libgladhamre.a.
pub struct Linked;

impl Drive for Linked {
    fn name(&self) -> String {
        "the linked drive".into()
    }

    fn blank(&self, capacity: u32, image: &mut [u32]) -> u32 {
        raw::blank(capacity, image)
    }

    fn command(&self, image: &mut [u32], lent: Lent) -> Answer {
        raw::command(image, lent)
    }
}

/// The drive in ordinary Rust, with or without a deliberate mistake.
#[derive(Default)]
pub struct Plain {
    pub fault: Option<Fault>,
}

impl Drive for Plain {
    fn name(&self) -> String {
        match self.fault {
            None => "the plain drive".into(),
            Some(fault) => format!("the plain drive with {fault:?}"),
        }
    }

    fn blank(&self, capacity: u32, image: &mut [u32]) -> u32 {
        plain::blank(capacity, image)
    }

    fn command(&self, image: &mut [u32], lent: Lent) -> Answer {
        let lent = plain::Lent {
            cdb: lent.cdb,
            data: lent.data,
            medium: lent.medium,
            pending: lent.pending,
            reply: lent.reply,
        };
        let answer = plain::command(image, lent, self.fault);
        Answer { number: answer.number, reply_count: answer.reply_count, recorded: answer.recorded }
    }
}
