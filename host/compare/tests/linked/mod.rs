//! The linked drive with the ordinary one's types.

use plain::{Answer, Lent};

pub fn linked(image: &mut [u32], lent: Lent) -> Answer {
    let lent = gladhamre::Lent {
        cdb: lent.cdb,
        data: lent.data,
        medium: lent.medium,
        pending: lent.pending,
        reply: lent.reply,
    };
    let answer = gladhamre::raw::command(image, lent);
    Answer { number: answer.number, reply_count: answer.reply_count, recorded: answer.recorded }
}
