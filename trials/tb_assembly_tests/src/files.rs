//! Texts in files that fail in mid-stream.
ghost use Rattle.std.specs.Prelude.{⊤};

use std::alloc::{AllocError, Global};
use std::test::Fail;
use tb_assembly_engine::{Manner, TextFailure, TextNames, TextRefusal, assemble_source};
use tb_engine_files::{FileSystem, Kind, Look, Node, Place, Trouble};
use tb_engine_streams::Tracked;
use tb_test_support::FailingReader;

const TEXT: &[u8] = b" .include \"more.asm\"\n jmp start\n";

const MORE: &[u8] = b"start rts\n";

const PRG: &[u8] = b"\x00\x10\x60\x4c\x00\x10";

const MANNER: Manner = Manner {
    at: 0x1000,
    long: false,
};

const NAMES: TextNames<'static> = TextNames {
    out: "out.prg",
    labels: Some("out.lab"),
    listing: None,
    is_forced: false,
};

/// Two files, of which each fails after some bytes; and what was written, or tried.
#[derive(Drop)]
struct Shelf {
    text_until_fault: usize,
    more_until_fault: usize,
    /// How many files can be written.
    room: usize,
    saved: Vec<Vec<u8>>,
}

impl Shelf {
    fn new(alloc: Global, text_until_fault: usize, more_until_fault: usize, room: usize) -> Shelf {
        Shelf {
            text_until_fault,
            more_until_fault,
            room,
            saved: Vec::new(alloc),
        }
    }
}

impl FileSystem for Shelf {
    type Input = FailingReader<'static>;

    ghost leads = { λ _ _ _. ⊤ };

    ghost shows = { λ _ _ _. ⊤ };

    ghost does = { λ _ _ _. ⊤ };

    ghost holds = { λ _ _ _. ⊤ };

    fn place(&self, alloc: Global, path: &str) -> Result<Place, AllocError> {
        let node = Node {
            device: 1,
            number: 7,
        };
        match path {
            "x/old.S" => Ok(Place::File(node, String::from_str(alloc, path)?)),
            _ => Ok(Place::Elsewhere),
        }
    }

    fn look(&self, alloc: Global, path: &str) -> Result<Option<Look>, AllocError> {
        match path {
            "x/old.code" => Ok(Some(Look {
                size: 3,
                beginning: Vec::from_slice(alloc, b"\x00\x20\x60")?,
            })),
            _ => Ok(None),
        }
    }

    fn open(&mut self, path: &str) -> Result<Tracked<FailingReader<'static>>, Trouble> {
        match path {
            "x/text.asm" => Ok(Tracked::new(FailingReader::new(TEXT, self.text_until_fault, 3))),
            "x/more.asm" => Ok(Tracked::new(FailingReader::new(MORE, self.more_until_fault, 3))),
            _ => Err(Trouble::Fault),
        }
    }

    fn close(&mut self, _path: &str, _input: Tracked<FailingReader<'static>>) {}

    fn save(&mut self, _path: &str, bytes: &[u8]) -> Result<(), Trouble> {
        if self.room <= self.saved.len() {
            return Err(Trouble::Fault);
        }
        let Ok(bytes) = Vec::from_slice(*self.saved.allocator(), bytes) else {
            return Err(Trouble::NoMemory);
        };
        match self.saved.push(bytes) {
            Ok(()) => Ok(()),
            Err(_) => Err(Trouble::NoMemory),
        }
    }
}

fn assembled(alloc: Global, shelf: &mut Shelf, path: &str) -> Result<(), TextFailure> {
    assemble_source(alloc, shelf, path, MANNER, NAMES)
}

#[test]
fn a_text_that_fails_is_a_read_fault(rt: HostRuntime) -> Result<(), Fail> {
    let alloc = rt.alloc();
    for until_fault in 0..=TEXT.len() {
        let mut shelf = Shelf::new(alloc, until_fault, usize::MAX, 2);
        let done = assembled(alloc, &mut shelf, "x/text.asm");
        assert!(rt; matches!(done, Err(TextFailure::ReadFault)));
        assert!(rt; shelf.saved.is_empty());
    }
    let mut shelf = Shelf::new(alloc, usize::MAX, usize::MAX, 2);
    assert!(rt;
        matches!(
            assembled(alloc, &mut shelf, "y"),
            Err(TextFailure::ReadFault)
        )
    );
    Ok(())
}

#[test]
fn an_include_that_fails_is_an_error(rt: HostRuntime) -> Result<(), Fail> {
    let alloc = rt.alloc();
    for until_fault in 0..=MORE.len() {
        let mut shelf = Shelf::new(alloc, usize::MAX, until_fault, 2);
        match assembled(alloc, &mut shelf, "x/text.asm") {
            Err(TextFailure::Refused(TextRefusal::Said(said))) => assert_eq!(rt;
                said.as_slice(),
                b"x/text.asm:1:2: error: the file can't be read\n    1 |  .include \"more.asm\"\n      |  ^\n".as_slice()
            ),
            _ => return Err(Fail::new("no refusal")),
        }
        assert!(rt; shelf.saved.is_empty());
    }
    Ok(())
}

#[test]
fn files_are_written_in_order_up_to_one_that_fails(rt: HostRuntime) -> Result<(), Fail> {
    let alloc = rt.alloc();
    for room in 0..=2usize {
        let mut shelf = Shelf::new(alloc, usize::MAX, usize::MAX, room);
        let done = assembled(alloc, &mut shelf, "x/text.asm");
        if room < 2 {
            assert!(rt; matches!(done, Err(TextFailure::WriteFault)));
        } else {
            assert!(rt; done.is_ok());
        }
        assert_eq!(rt; shelf.saved.len(), room);
        if let Some(prg) = shelf.saved.first() {
            assert_eq!(rt; prg.as_slice(), PRG);
        }
    }
    Ok(())
}

#[test]
fn no_text_is_overwritten(rt: HostRuntime) -> Result<(), Fail> {
    let alloc = rt.alloc();
    for (out, is_source) in [("x/old.S", true), ("x/more.asm", false)] {
        let mut shelf = Shelf::new(alloc, usize::MAX, usize::MAX, 3);
        let names = TextNames {
            out,
            labels: None,
            listing: Some("x/old.lst"),
            is_forced: true,
        };
        let done = assemble_source(alloc, &mut shelf, "x/text.asm", MANNER, names);
        assert_eq!(rt;
            matches!(done, Err(TextFailure::Refused(TextRefusal::IsSource(_)))),
            is_source
        );
        assert_eq!(rt;
            matches!(done, Err(TextFailure::Refused(TextRefusal::SameFile))),
            !is_source
        );
        assert!(rt; shelf.saved.is_empty());
    }
    Ok(())
}

#[test]
fn code_of_another_address_is_overwritten_by_force_alone(rt: HostRuntime) -> Result<(), Fail> {
    let alloc = rt.alloc();
    for is_forced in [false, true] {
        let mut shelf = Shelf::new(alloc, usize::MAX, usize::MAX, 3);
        let names = TextNames {
            out: "x/old.code",
            labels: None,
            listing: None,
            is_forced,
        };
        let done = assemble_source(alloc, &mut shelf, "x/text.asm", MANNER, names);
        match done {
            Ok(()) => assert!(rt; is_forced),
            Err(TextFailure::Refused(TextRefusal::Unlike(_, kind))) => {
                assert!(rt; !is_forced && kind == Kind::Code(Some(0x1000)));
            }
            Err(_) => return Err(Fail::new("another refusal")),
        }
        assert_eq!(rt; shelf.saved.len(), usize::from(is_forced));
    }
    Ok(())
}
