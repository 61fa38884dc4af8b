//! A device with a file of its own: killed in each act, and told of a failure.

use mailrep::{
    Born, Draft, Error, HandedOut, KeptDevice, KeptError, OpenFault, PeerFault, Received, Refusal,
    Storage, Version, VersionFault, mark_of,
};
use std::cell::RefCell;
use std::fs::{self, File};
use std::io;
use std::path::{Path, PathBuf};
use std::rc::Rc;

const BIRTH: [u8; 16] = [7; 16];
const MARK: [u8; 32] = [9; 32];

const LUNCH: Draft<'_> = Draft {
    from: "ann@example.org",
    subject: "lunch",
    body: b"See you there.",
    labels: "inbox",
    flags: 0,
    day: 20_000,
};

/// A file in memory, which fails from its act of this number on: as if the program had been killed there. A write that fails does
/// `torn` of its bytes.
#[derive(Debug, Default)]
struct Memory {
    bytes: Rc<RefCell<Vec<u8>>>,
    acts: usize,
    fails_at: Option<usize>,
    torn: usize,
}

impl Memory {
    fn over(bytes: &Rc<RefCell<Vec<u8>>>) -> Memory {
        Memory {
            bytes: Rc::clone(bytes),
            ..Memory::default()
        }
    }

    fn fails(&mut self) -> bool {
        self.acts += 1;
        self.fails_at.is_some_and(|at| self.acts > at)
    }

    fn put(&mut self, at: u64, part: &[u8]) {
        let at = usize::try_from(at).unwrap();
        let mut bytes = self.bytes.borrow_mut();
        assert!(at <= bytes.len(), "a write behind the end");
        let end = bytes.len().max(at + part.len());
        bytes.resize(end, 0);
        bytes[at..at + part.len()].copy_from_slice(part);
    }
}

fn killed() -> io::Error {
    io::Error::other("killed")
}

impl Storage for Memory {
    // Each test has one of it at a time.
    fn lock(&mut self) -> io::Result<()> {
        Ok(())
    }

    fn read_all(&mut self) -> io::Result<Vec<u8>> {
        Ok(self.bytes.borrow().clone())
    }

    fn write_at(&mut self, at: u64, bytes: &[u8]) -> io::Result<()> {
        if self.fails() {
            self.put(at, &bytes[..self.torn.min(bytes.len())]);
            return Err(killed());
        }
        self.put(at, bytes);
        Ok(())
    }

    fn cut(&mut self, len: u64) -> io::Result<()> {
        if self.fails() {
            return Err(killed());
        }
        self.bytes
            .borrow_mut()
            .truncate(usize::try_from(len).unwrap());
        Ok(())
    }

    fn sync(&mut self) -> io::Result<()> {
        if self.fails() { Err(killed()) } else { Ok(()) }
    }
}

/// Begins a device and commits three times, and counts the versions that it handed out, until the file fails.
fn run(file: Memory, handed_out: &mut Vec<Version>) -> Result<(), KeptError> {
    let mut phone = KeptDevice::begin(file, 0, "all", 100, &BIRTH, &MARK)?;
    for size in [1, 2, 1] {
        for _ in 0..size {
            phone.create(&LUNCH)?;
        }
        for out in phone.commit()? {
            match out {
                HandedOut::Issued(version) => handed_out.push(version),
                other => panic!("{other:?}"),
            }
        }
    }
    Ok(())
}

/// The device of the file, begun anew where a begin was cut off.
fn again(bytes: &Rc<RefCell<Vec<u8>>>) -> KeptDevice<Memory> {
    match KeptDevice::open(Memory::over(bytes), &MARK, Some(&BIRTH)) {
        Ok(phone) => phone,
        Err(KeptError::Device(Error::Open(OpenFault::NoReplica))) => {
            bytes.borrow_mut().clear();
            KeptDevice::begin(Memory::over(bytes), 0, "all", 100, &BIRTH, &MARK).unwrap()
        }
        Err(error) => panic!("{error}"),
    }
}

#[test]
fn what_was_handed_out_is_kept_in_whichever_act_the_program_is_killed() {
    for torn in [0, 1, 7, 30, 100, usize::MAX] {
        for fails_at in 0.. {
            let bytes = Rc::default();
            let mut handed_out = Vec::new();
            let mut file = Memory::over(&bytes);
            (file.fails_at, file.torn) = (Some(fails_at), torn);
            let ended = run(file, &mut handed_out).is_ok();
            let mut phone = again(&bytes);
            let shown = phone.shown().unwrap();
            for version in &handed_out {
                assert_eq!(shown.message(*version).unwrap().subject, "lunch");
            }
            // All of a batch or nothing.
            let heads = shown.counts().heads;
            assert!([0, 1, 3, 4].contains(&heads), "{heads}");
            assert!(heads >= handed_out.len());
            phone.create(&LUNCH).unwrap();
            assert!(
                matches!(phone.commit().unwrap()[..], [HandedOut::Issued(v)] if !handed_out.contains(&v))
            );
            if ended {
                assert_eq!(handed_out.len(), 4);
                break;
            }
        }
    }
}

/// Writes a message and its number as a note, three times, until the file fails.
fn run_with_notes(file: Memory) -> Result<(), KeptError> {
    let mut phone = KeptDevice::begin(file, 0, "all", 100, &BIRTH, &MARK)?;
    for number in 1..=3 {
        phone.note(&[number; 600])?;
        phone.create(&LUNCH)?;
        phone.commit()?;
    }
    Ok(())
}

#[test]
fn a_note_is_kept_with_its_event_in_whichever_act_the_program_is_killed() {
    for torn in [0, 100, usize::MAX] {
        for fails_at in 0.. {
            let bytes = Rc::default();
            let mut file = Memory::over(&bytes);
            (file.fails_at, file.torn) = (Some(fails_at), torn);
            let ended = run_with_notes(file).is_ok();
            let phone = again(&bytes);
            let heads = phone.shown().unwrap().counts().heads;
            let notes: Vec<_> = [1, 2, 3].map(|number| vec![number; 600]).into();
            assert_eq!(phone.notes().unwrap(), notes[..heads]);
            if ended {
                assert_eq!(heads, 3);
                break;
            }
        }
    }
}

#[test]
fn a_note_waits_for_a_commit_and_the_next_opening_finds_it() -> Result<(), KeptError> {
    let bytes = Rc::default();
    let mut phone = KeptDevice::begin(Memory::over(&bytes), 0, "all", 100, &BIRTH, &MARK)?;
    phone.note(b"first")?;
    assert_eq!(phone.shown().map(|_| ()), Err(Error::Unsettled));
    assert_eq!(phone.commit()?, []);
    phone.note(b"")?;
    phone.commit()?;
    phone.note(b"never committed")?;
    assert_eq!(phone.notes()?, Vec::<Vec<u8>>::new());
    let mut phone = KeptDevice::open(Memory::over(&bytes), &MARK, None)?;
    phone.note(b"third")?;
    assert_eq!(phone.notes()?, [b"first".to_vec(), Vec::new()]);
    phone.commit()?;
    let phone = KeptDevice::open(Memory::over(&bytes), &MARK, None)?;
    assert_eq!(phone.notes()?.pop(), Some(b"third".to_vec()));
    assert_eq!(phone.notes()?.len(), 3);
    Ok(())
}

#[test]
fn a_file_that_failed_has_to_be_opened_again() {
    let bytes = Rc::default();
    let mut file = Memory::over(&bytes);
    file.fails_at = Some(100);
    let mut phone = KeptDevice::begin(file, 0, "all", 100, &BIRTH, &MARK).unwrap();
    phone.create(&LUNCH).unwrap();
    assert_eq!(phone.shown().map(|_| ()), Err(Error::Unsettled));
    assert_eq!(phone.handed_out(), Err(Error::Unsettled));
    while phone.commit().is_ok() {
        phone.create(&LUNCH).unwrap();
    }
    assert_eq!(phone.create(&LUNCH), Err(Error::Failed));
    assert_eq!(phone.note(b"1"), Err(Error::Failed));
    assert_eq!(phone.notes(), Err(Error::Failed));
    assert_eq!(phone.shown().map(|_| ()), Err(Error::Failed));
    assert!(matches!(
        phone.commit(),
        Err(KeptError::Device(Error::Failed))
    ));
}

/// A path below the system's folder for such files, at which nothing is.
fn fresh(name: &str) -> PathBuf {
    let path = std::env::temp_dir().join(format!("mailrep-{name}-{}", std::process::id()));
    let _ = fs::remove_file(&path);
    path
}

fn opened(path: &Path) -> File {
    File::options()
        .read(true)
        .write(true)
        .create(true)
        .truncate(false)
        .open(path)
        .unwrap()
}

#[test]
fn a_begin_erases_nothing() {
    let path = fresh("erases");
    let mut phone = KeptDevice::begin(opened(&path), 0, "all", 100, &BIRTH, &MARK).unwrap();
    phone.create(&LUNCH).unwrap();
    phone.commit().unwrap();
    let file = phone.into_storage();
    let bytes = fs::read(&path).unwrap();
    let not_empty = |begun| {
        matches!(
            begun,
            Err(KeptError::Device(Error::Open(OpenFault::NotEmpty)))
        )
    };
    assert!(not_empty(KeptDevice::begin(
        file, 0, "all", 100, &[1; 16], &MARK
    )));
    assert_eq!(fs::read(&path).unwrap(), bytes);
    let phone = KeptDevice::open(opened(&path), &MARK, Some(&BIRTH)).unwrap();
    assert_eq!(phone.shown().unwrap().heads().len(), 1);
    drop(phone);
    // Whatever it is.
    fs::write(&path, b"a letter").unwrap();
    assert!(not_empty(KeptDevice::begin(
        opened(&path),
        0,
        "all",
        100,
        &BIRTH,
        &MARK
    )));
    assert_eq!(fs::read(&path).unwrap(), b"a letter");
    fs::remove_file(&path).unwrap();
}

#[test]
fn of_a_file_one_device_is_open() {
    let path = fresh("lock");
    let mark = mark_of(&opened(&path)).unwrap();
    let phone = KeptDevice::begin(opened(&path), 0, "all", 100, &BIRTH, &mark).unwrap();
    assert!(matches!(
        KeptDevice::open(opened(&path), &mark, None),
        Err(KeptError::InUse)
    ));
    assert!(matches!(
        KeptDevice::begin(opened(&path), 0, "all", 100, &BIRTH, &mark),
        Err(KeptError::InUse)
    ));
    // The file keeps its lock, of which another device of the same file may be made.
    let file = phone.into_storage();
    assert!(matches!(
        KeptDevice::open(opened(&path), &mark, None),
        Err(KeptError::InUse)
    ));
    drop(KeptDevice::open(file, &mark, None).unwrap());
    drop(KeptDevice::open(opened(&path), &mark, None).unwrap());
    fs::remove_file(&path).unwrap();
}

#[test]
fn a_copy_has_another_mark() {
    let (path, copy) = (fresh("original"), fresh("copy"));
    let mark = mark_of(&opened(&path)).unwrap();
    drop(KeptDevice::begin(opened(&path), 0, "all", 100, &BIRTH, &mark).unwrap());
    fs::copy(&path, &copy).unwrap();
    assert_eq!(mark_of(&opened(&path)).unwrap(), mark);
    let of_copy = mark_of(&opened(&copy)).unwrap();
    assert_ne!(of_copy, mark);
    for other in [of_copy, [0; 32]] {
        assert!(matches!(
            KeptDevice::open(opened(&copy), &other, None),
            Err(KeptError::Device(Error::Open(OpenFault::Copied)))
        ));
    }
    for path in [path, copy] {
        fs::remove_file(path).unwrap();
    }
}

#[test]
fn two_kept_devices_come_into_step() -> Result<(), KeptError> {
    let mut phone = KeptDevice::begin(Memory::default(), 0, "all", 100, &BIRTH, &MARK)?;
    let mut office = KeptDevice::begin(Memory::default(), 1, "all", 100, &[8; 16], &MARK)?;
    phone.create(&LUNCH)?;
    let lunch = match phone.commit()?[..] {
        [HandedOut::Issued(lunch)] => lunch,
        _ => panic!("no version"),
    };
    office.pull()?;
    let Some(HandedOut::Asked(session, request)) = office.commit()?.pop() else {
        panic!("no request")
    };
    let stream = phone.answer(&request)?;
    loop {
        phone.next(stream)?;
        let Some(HandedOut::Gave(record)) = phone.commit()?.pop() else {
            panic!("no record")
        };
        if office.receive(&record)? == Received::Finished {
            break;
        }
    }
    assert_eq!(
        office.cut_in(session),
        Err(Error::Refused(Refusal::NoSession))
    );
    assert_eq!(office.commit()?, []);
    assert_eq!(office.shown()?.message(lunch)?.subject, "lunch");
    office.vouch(lunch)?;
    assert!(matches!(office.commit()?[..], [HandedOut::Vouched(_)]));
    Ok(())
}

#[test]
fn a_copy_and_another_birth_are_refused() {
    let bytes = Rc::default();
    run(Memory::over(&bytes), &mut Vec::new()).unwrap();
    let open = |mark: &[u8; 32], birth: &[u8; 16]| match KeptDevice::open(
        Memory::over(&bytes),
        mark,
        Some(birth),
    ) {
        Ok(_) => None,
        Err(KeptError::Device(error)) => Some(error),
        Err(error) => panic!("{error}"),
    };
    assert_eq!(open(&[0; 32], &BIRTH), Some(Error::Open(OpenFault::Copied)));
    assert_eq!(
        open(&MARK, &[0; 16]),
        Some(Error::Open(OpenFault::OtherBirth))
    );
    assert_eq!(open(&MARK, &BIRTH), None);
}

#[test]
fn an_old_copy_and_another_file_of_its_id_are_told_by_a_peer() -> Result<(), KeptError> {
    let bytes = Rc::default();
    let mut phone = KeptDevice::begin(Memory::over(&bytes), 0, "all", 100, &BIRTH, &MARK)?;
    phone.create(&LUNCH)?;
    phone.commit()?;
    let backup = Rc::new(RefCell::new(bytes.borrow().clone()));
    phone.create(&LUNCH)?;
    assert_eq!(phone.check_peer(&[], &[]), Err(Error::Unsettled));
    phone.commit()?;
    let met = Born {
        author: 0,
        birth: phone.birth()?,
    };
    assert_eq!(met.birth, BIRTH);
    let counter = phone.shown()?.highest(0)?.unwrap();
    let told = Version { author: 0, counter };
    assert_eq!((counter, phone.shown()?.highest(5)?), (2, None));
    assert_eq!(phone.check_peer(&[told], &[met]), Ok(()));
    let old = KeptDevice::open(Memory::over(&backup), &MARK, None)?;
    let old_copy = Err(Error::Peer(PeerFault::OldCopy));
    assert_eq!(old.check_peer(&[told], &[met]), old_copy);
    let other = Born {
        birth: [0; 16],
        ..met
    };
    let other_birth = Err(Error::Peer(PeerFault::OtherBirth));
    assert_eq!(old.check_peer(&[], &[met, other]), other_birth);
    assert_eq!(
        old.check_peer(&[told], &[Born { author: 64, ..met }]),
        Err(Error::Version(VersionFault::NoSuchAuthor))
    );
    Ok(())
}
