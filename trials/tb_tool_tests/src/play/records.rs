//! Key files, over readers that fail and hand on few bytes at a time.
use std::alloc::Global;
use std::io::Read;
use std::test::Fail;
use tb_engine_streams::{KeyFileError, Tracked, key_file, read_key_file};
use tb_test_support::FailingReader;

const KEYS: &[u8] = b"AB\rZ{\xff\0\r";

/// Their key file.
const TEXT: &[u8] = b"41420d5a7bff000d\n";

fn keys_in<R: Read + Drop>(alloc: Global, reader: R) -> Result<Vec<u8>, KeyFileError> {
    read_key_file(alloc, &mut Tracked::new(reader))
}

// Whether these keys were read.
fn are_keys(read: Result<Vec<u8>, KeyFileError>, keys: &[u8]) -> bool {
    match read {
        Ok(read) => read.as_slice() == keys,
        Err(_) => false,
    }
}

fn is_refused(read: Result<Vec<u8>, KeyFileError>, error: KeyFileError) -> bool {
    match read {
        Ok(_) => false,
        Err(refused) => refused == error,
    }
}

#[test]
fn keys_have_their_text(rt: HostRuntime) -> Result<(), Fail> {
    assert_eq!(rt; key_file(rt.alloc(), KEYS)?.as_slice(), TEXT);
    assert_eq!(rt; key_file(rt.alloc(), b"")?.as_slice(), b"\n".as_slice());
    Ok(())
}

#[test]
fn a_key_file_is_read_however_few_bytes_come_at_once(rt: HostRuntime) -> Result<(), Fail> {
    for most in 1..20 {
        let reader = FailingReader::new(TEXT, usize::MAX, most);
        assert!(rt; are_keys(keys_in(rt.alloc(), reader), KEYS));
    }
    Ok(())
}

#[test]
fn a_reader_of_a_key_file_that_fails(rt: HostRuntime) -> Result<(), Fail> {
    for until_fault in 0..=TEXT.len() {
        let reader = FailingReader::new(TEXT, until_fault, 3);
        assert!(rt; is_refused(keys_in(rt.alloc(), reader), KeyFileError::Fault));
    }
    Ok(())
}

#[test]
fn each_beginning_of_a_key_file(rt: HostRuntime) -> Result<(), Fail> {
    for length in 0..TEXT.len() {
        let read = keys_in(rt.alloc(), &TEXT[..length]);
        if length % 2 == 0 {
            assert!(rt; are_keys(read, &KEYS[..length / 2]));
        } else {
            assert!(rt; is_refused(read, KeyFileError::BadKeys));
        }
    }
    Ok(())
}

#[test]
fn ends_of_a_key_file(rt: HostRuntime) -> Result<(), Fail> {
    let texts: [&[u8]; 3] = [b"4142", b"4142\n", b"4142\r\n"];
    for text in texts {
        assert!(rt; are_keys(keys_in(rt.alloc(), text), b"AB"));
    }
    let refused: [&[u8]; 6] = [
        b"4142\r",
        b"4142\n\n",
        b"4142\n\r\n",
        b"\r",
        b" 4142",
        b"41 42",
    ];
    for text in refused {
        assert!(rt; is_refused(keys_in(rt.alloc(), text), KeyFileError::BadKeys));
    }
    Ok(())
}
