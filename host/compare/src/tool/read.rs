//! Holds the comparison of the readers: of Received OK, of Rejected and of reply datagrams.

use crate::guarded::Guarded;
use crate::random::Random;
use crate::setup::{hex, same};
use crate::tool::cases::{ToolCase, ToolTally};
use crate::tool::replies;
use crate::tool::said::{acknowledged, rejection, Said, BEHIND_CODE};
use crate::tool::Archive;
use model::{ReceivedOk, ToolRefusal};

/// Reads a random Received OK.
pub fn received_ok_call(
    archive: &impl Archive,
    random: &mut Random,
    tally: &mut ToolTally,
) -> Result<(), String> {
    let length = match random.below(8) {
        0 => 0,
        1 => 2,
        2 => random.pick(&[3, 8, 66, 256, 257]),
        _ => 1,
    };
    let mut content = random.bytes(length);
    if let Some(flags) = content.first_mut() {
        *flags = match random.below(3) {
            0 => random.pick(&[0x00, 0x0F, 0x10, 0x70, 0x7F, 0x80, 0x8F, 0x90, 0xFF]),
            1 => random.byte() & 0x8F,
            _ => random.byte(),
        };
    }
    tally.received_ok(&content);
    received_ok(archive, &content).map(|_| ())
}

/// Reads the content of a Received OK on both sides.
pub fn received_ok(
    archive: &impl Archive,
    content: &[u8],
) -> Result<Result<ReceivedOk, ToolRefusal>, String> {
    let lent = Guarded::new(content);
    let library = archive.read_received_ok(lent.bytes());
    let model = model::read_received_ok(content);
    let compared = same(library == acknowledged(model), "the answers differ")
        .and_then(|()| untouched(&lent, content));
    compared.map_err(|what| {
        format!(
            "reading Received OK: {what}\ncontent  {}\nlibrary  {library:X?}\nmodel    {model:X?}\n",
            hex(content)
        )
    })?;
    Ok(model)
}

/// Reads a random Rejected.
pub fn rejected_call(
    archive: &impl Archive,
    random: &mut Random,
    tally: &mut ToolTally,
) -> Result<(), String> {
    let length = match random.below(4) {
        0 => random.pick(&[0, 1, 1, 2, 3]),
        1 => random.pick(&[64, 65, 66, 67]),
        2 => random.pick(&[68, 72, 100, 256, 257, 258, 320]),
        _ => random.between(0, 80),
    };
    let content = random.bytes(length);
    tally.rejected(&content);
    rejected(archive, &content).map(|_| ())
}

/// Reads the content of a Rejected on both sides, and gives its code.
pub fn rejected(
    archive: &impl Archive,
    content: &[u8],
) -> Result<Result<u16, ToolRefusal>, String> {
    let lent = Guarded::new(content);
    let library = archive.read_rejected(lent.bytes());
    let model = model::read_rejected(content);
    let behind = content.get(BEHIND_CODE..).unwrap_or_default();
    let compared = same(
        library == rejection(content.len(), model),
        "the answers differ",
    )
    .and_then(|()| {
        same(
            model.map_or(true, |model| model.further == behind),
            "the further bytes are not those behind the code",
        )
    })
    .and_then(|()| untouched(&lent, content));
    compared.map_err(|what| {
        format!(
            "reading Rejected: {what}\ncontent  {}\nlibrary  {library:X?}\nmodel    {model:X?}\n",
            hex(content)
        )
    })?;
    Ok(model.map(|model| model.code))
}

/// Reads a random datagram, mostly a reply or almost one.
pub fn reply_call(
    archive: &impl Archive,
    random: &mut Random,
    tally: &mut ToolTally,
) -> Result<(), String> {
    if random.once_in(8) {
        let datagram = replies::almost_none(random);
        let said = reply(archive, &datagram)?;
        tally.said(&datagram, said);
        return Ok(());
    }
    let (mut datagram, made) = replies::any(random);
    let spoilt = random.once_in(2);
    if spoilt {
        replies::spoil(random, &mut datagram);
    }
    let said = reply(archive, &datagram)?;
    tally.said(&datagram, said);
    if spoilt {
        if !matches!(said, Said::Refused(_)) {
            tally.count(ToolCase::StillGood);
        }
        return Ok(());
    }
    tally.count(ToolCase::AsMade);
    if said == made {
        return Ok(());
    }
    Err(format!(
        "reading a reply: it is not what it was made of\ndatagram {}\nread     {said:X?}\n\
         made of  {made:X?}\n",
        hex(&datagram)
    ))
}

/// Reads a datagram on both sides.
pub fn reply(archive: &impl Archive, datagram: &[u8]) -> Result<Said, String> {
    let lent = Guarded::new(datagram);
    let library = archive.read_reply(lent.bytes());
    let said = Said::of_model(datagram);
    let compared = same(library == said.numbers(), "the answers differ")
        .and_then(|()| untouched(&lent, datagram));
    compared.map_err(|what| {
        format!(
            "reading a reply: {what}\ndatagram {}\nlibrary  {library:X?}\nexpected {:X?}\n\
             model    {said:X?}\n",
            hex(datagram),
            said.numbers()
        )
    })?;
    Ok(said)
}

/// What is lent to be read is as it was.
pub fn untouched(lent: &Guarded, content: &[u8]) -> Result<(), &'static str> {
    same(
        lent.is_intact() && lent.bytes() == content,
        "what is lent to be read is changed",
    )
}
