//! Two devices, and what they refuse.

use mailrep::{
    Change, Claim, Device, Draft, Error, EventFault, FilterFault, FrameKind, MergeFault, Message,
    MessageFault, Received, Refusal, ReplayFault, Result, Version, VersionFault, WireFault, flag,
};

const LUNCH: Draft<'_> = Draft {
    from: "ann@example.org",
    subject: "lunch",
    body: b"See you there.",
    labels: "work,inbox",
    flags: flag::SEEN,
    day: 20_000,
};

/// `to` takes all that `from` has for it, and tells how many records that were.
fn sync(to: &mut Device, from: &mut Device) -> Result<usize> {
    let (_session, request) = to.pull()?;
    let stream = from.answer(&request)?;
    for count in 1.. {
        if to.receive(&from.next(stream)?)? == Received::Finished {
            return Ok(count);
        }
    }
    unreachable!()
}

#[test]
fn a_message_goes_over_and_back() -> Result<()> {
    let mut phone = Device::open(0, "label:inbox", 100)?;
    let mut office = Device::open(1, "all", 100)?;
    let lunch = phone.create(&LUNCH)?;
    sync(&mut office, &mut phone)?;
    let message = office.message(lunch)?;
    assert_eq!(message.subject, "lunch");
    assert_eq!(message.body, b"See you there.");
    assert_eq!(message.labels, "inbox,work");
    assert_eq!(message.each_label().collect::<Vec<_>>(), ["inbox", "work"]);
    assert_eq!((message.flags, message.day), (flag::SEEN, 20_000));
    let moved = office.edit(
        &[lunch],
        &Draft {
            labels: "work",
            ..LUNCH
        },
    )?;
    sync(&mut phone, &mut office)?;
    assert_eq!(phone.heads().count(), 0);
    let changes: Vec<_> = phone
        .changes_since(0)
        .map(|c| (c.entered(), c.version))
        .collect();
    assert_eq!(changes, [(true, lunch), (false, lunch)]);
    assert!(phone.knows(lunch, moved)?);
    assert_eq!(phone.changes_since(2).next(), None::<Change>);
    Ok(())
}

#[test]
fn two_edits_are_merged() -> Result<()> {
    let mut phone = Device::open(0, "all", 100)?;
    let mut office = Device::open(1, "all", 100)?;
    let lunch = phone.create(&LUNCH)?;
    sync(&mut office, &mut phone)?;
    assert_eq!(phone.merge(lunch), Err(Error::NoConflict));
    let read = Draft {
        flags: flag::SEEN | flag::FLAGGED,
        ..LUNCH
    };
    let moved = Draft {
        labels: "archive",
        ..LUNCH
    };
    let here = phone.edit(&[lunch], &read)?;
    let there = office.edit(&[lunch], &moved)?;
    sync(&mut phone, &mut office)?;
    assert_eq!(phone.conflicts()?, [lunch]);
    assert_eq!(phone.heads_of(lunch)?, [here, there]);
    let merged = phone.merge(lunch)?;
    assert_eq!(phone.heads_of(lunch)?, [merged]);
    assert_eq!(phone.conflicts()?, []);
    let message = phone.message(merged)?;
    assert_eq!(message.labels, "archive");
    assert_eq!(message.flags, flag::SEEN | flag::FLAGGED);
    sync(&mut office, &mut phone)?;
    assert_eq!(office.heads_of(lunch)?, [merged]);
    phone.edit(&[merged], &LUNCH)?;
    office.edit(
        &[merged],
        &Draft {
            subject: "lunch at noon",
            ..LUNCH
        },
    )?;
    sync(&mut office, &mut phone)?;
    assert_eq!(
        office.merge(lunch),
        Err(Error::Merge(MergeFault::ContentsDiffer))
    );
    Ok(())
}

#[test]
fn a_device_is_its_log() -> Result<()> {
    let mut phone = Device::open(0, "all", 100)?;
    phone.create(&LUNCH)?;
    phone.pull()?;
    let mut log: Vec<u8> = phone.log_since(0).collect::<Result<Vec<_>>>()?.concat();
    let again = Device::replay(0, "all", 100, &log)?;
    assert_eq!(
        again.heads().collect::<Vec<_>>(),
        phone.heads().collect::<Vec<_>>()
    );
    assert_eq!(again.sessions()?, [1]);
    assert_eq!(again.frame()?, b"");
    log.pop();
    assert_eq!(
        Device::replay(0, "all", 100, &log).unwrap_err(),
        Error::Event(EventFault::Truncated)
    );
    Ok(())
}

#[test]
fn what_is_refused_changes_nothing() -> Result<()> {
    let mut phone = Device::open(0, "all", 100)?;
    let (session, request) = phone.pull()?;
    assert_eq!(phone.answer(&request), Err(Error::Refused(Refusal::OwnAsk)));
    assert_eq!(phone.answer(b"abc"), Err(Error::Wire(WireFault::Truncated)));
    assert_eq!(
        phone.answer(&[&request[..], b"x"].concat()),
        Err(Error::BytesBehind)
    );
    assert_eq!(phone.release(&request), Err(Error::OtherFrame));
    assert_eq!(
        phone.cut_in(session + 1),
        Err(Error::Refused(Refusal::NoSession))
    );
    assert_eq!(
        phone.vouch(Version {
            author: 64,
            counter: 1
        }),
        Err(Error::Version(VersionFault::NoSuchAuthor))
    );
    assert_eq!(
        phone.create(&Draft {
            labels: "In Box",
            ..LUNCH
        }),
        Err(Error::Message(MessageFault::BadLabel))
    );
    assert_eq!(
        phone.message(Version {
            author: 0,
            counter: 1
        }),
        Err(Error::NotThere)
    );
    assert_eq!(phone.frame()?, request);
    assert_eq!(phone.counts().events, 1);
    assert_eq!(
        Device::open(64, "all", 100).unwrap_err(),
        Error::Version(VersionFault::NoSuchAuthor)
    );
    assert_eq!(
        Device::open(0, "label:", 100).unwrap_err(),
        Error::Filter(FilterFault::BadFilter)
    );
    assert_eq!(
        Device::open(0, "all", 0).unwrap_err(),
        Error::Replay(ReplayFault::BadLimit)
    );
    phone.retire()?;
    assert!(phone.is_retired());
    assert_eq!(phone.create(&LUNCH), Err(Error::Refused(Refusal::Retired)));
    Ok(())
}

#[test]
fn frames_tell_their_length_and_their_sender() -> Result<()> {
    let mut phone = Device::open(5, "all", 100)?;
    let (_session, request) = phone.pull()?;
    assert_eq!(mailrep::frame_len(&request[..4])?, Some(request.len()));
    assert_eq!(mailrep::frame_len(&request[..3])?, None);
    assert_eq!(
        mailrep::frame_len(&[0xff; 4]),
        Err(Error::Wire(WireFault::TooLong))
    );
    let claim = mailrep::claim(&request)?;
    assert_eq!(
        claim,
        Claim {
            kind: FrameKind::Ask,
            author: 5
        }
    );
    Ok(())
}

#[test]
fn readers_go_on_beside_one_another() -> Result<()> {
    let mut phone = Device::open(0, "all", 100)?;
    for subject in ["lunch", "coffee", "tea"] {
        phone.create(&Draft { subject, ..LUNCH })?;
    }
    let heads = phone.heads();
    assert_eq!((heads.len(), phone.changes_since(1).len()), (3, 2));
    let mut subjects = Vec::new();
    for head in heads.rev() {
        subjects.push(phone.message(head.version)?.subject);
        assert_eq!(phone.heads_of(head.item)?, [head.version]);
    }
    assert_eq!(subjects, ["tea", "coffee", "lunch"]);
    assert_eq!(phone.changes_since(9).len(), 0);
    Ok(())
}

#[test]
fn an_edit_changes_a_part_of_a_message() -> Result<()> {
    let mut phone = Device::open(0, "all", 100)?;
    let lunch = phone.create(&LUNCH)?;
    let message = phone.message(lunch)?;
    let flags = message.flags | flag::FLAGGED;
    let marked = phone.edit(
        &[lunch],
        &Draft {
            flags,
            ..message.as_draft()
        },
    )?;
    assert_eq!(phone.message(marked)?, Message { flags, ..message });
    let bare = phone.create(&Draft::default())?;
    assert_eq!(phone.message(bare)?.labels, "");
    assert_eq!(phone.message(bare)?.each_label().count(), 0);
    Ok(())
}

#[test]
fn a_version_is_its_text() {
    for (author, counter) in [(0, 1), (63, 1_000_000), (7, 10)] {
        let version = Version { author, counter };
        assert_eq!(version.to_string().parse(), Ok(version));
    }
    for text in [
        "",
        ".",
        "1",
        "1.",
        ".1",
        "64.1",
        "0.0",
        "0.1000001",
        "00.1",
        "0.01",
        "+1.1",
        "1.+1",
        "1.1 ",
        "1.1.1",
        "-1.1",
        "4294967296.1",
    ] {
        assert_eq!(
            text.parse::<Version>(),
            Err(VersionFault::BadVersion),
            "{text}"
        );
    }
}

#[test]
fn a_device_goes_to_another_thread() -> Result<()> {
    let mut phone = Device::open(0, "all", 100)?;
    let phone = std::thread::spawn(move || phone.create(&LUNCH).map(|_| phone))
        .join()
        .unwrap()?;
    assert_eq!(phone.counts().heads, 1);
    Ok(())
}
