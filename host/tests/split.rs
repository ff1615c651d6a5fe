//! The splitter, by batches written out: each answer, its place and the sequence of its tests.

use host::{messages, split, Fault, Framed, LONGEST_MESSAGE};

fn message(from: usize, until: usize) -> Framed {
    Framed::Message { from, until }
}

fn refused(number: u64, bit: u64) -> Framed {
    Framed::Refused(Fault { number, bit })
}

/// 1,048,576 is 10 00 00 in hex.
#[test]
fn longest_length_is_the_papers() {
    assert_eq!(LONGEST_MESSAGE, 0x10_00_00);
}

#[test]
fn end_where_no_byte_is_left() {
    for at in [0, 1, u64::MAX] {
        assert_eq!(split(&[], at), Framed::End);
    }
    for at in [3, 4, u64::MAX / 8 + 1, u64::MAX] {
        assert_eq!(split(&[0, 0, 0], at), Framed::End);
    }
}

/// Messages of 2, 0 and 1 bytes.
#[test]
fn messages_are_parts_of_the_batch() {
    let batch = [0, 0, 2, 7, 8, 0, 0, 0, 0, 0, 1, 9];
    assert_eq!(split(&batch, 0), message(3, 5));
    assert_eq!(split(&batch, 5), message(8, 8));
    assert_eq!(split(&batch, 8), message(11, 12));
    assert_eq!(split(&batch, 12), Framed::End);
    assert!(messages(&batch).eq([Ok(&[7, 8][..]), Ok(&[]), Ok(&[9])]));
}

/// One and two bytes of a length, whatever they say, at the start and behind a message.
#[test]
fn a_length_cut_short_is_refused_with_1() {
    for cut in [&[0][..], &[0xff], &[0, 0], &[0xff, 0xff]] {
        assert_eq!(split(cut, 0), refused(1, 0));
        let batch = [&[0, 0, 1, 7], cut].concat();
        assert_eq!(split(&batch, 4), refused(1, 32));
        let fault = Fault { number: 1, bit: 32 };
        assert!(messages(&batch).eq([Ok(&[7][..]), Err(fault)]));
    }
}

/// By one and by the most, with no byte behind the length and with all of them.
#[test]
fn a_length_above_the_longest_is_refused_with_4() {
    for (length, bytes) in [
        ([0x10, 0, 1], LONGEST_MESSAGE + 1),
        ([0xff, 0xff, 0xff], 0xff_ff_ff),
    ] {
        assert_eq!(split(&length, 0), refused(4, 0));
        let whole = [&[0, 0, 0], &length[..], &vec![0; bytes]].concat();
        assert_eq!(split(&whole, 3), refused(4, 24));
    }
}

/// The longest message, whole and without its last byte.
#[test]
fn a_message_cut_short_is_refused_with_1() {
    assert_eq!(split(&[0, 0, 1], 0), refused(1, 0));
    assert_eq!(split(&[0, 0, 2, 7], 0), refused(1, 0));
    let whole = [&[0x10, 0, 0], &vec![0; LONGEST_MESSAGE][..]].concat();
    assert_eq!(split(&whole, 0), message(3, 1_048_579));
    assert_eq!(split(&whole, 1_048_579), Framed::End);
    assert_eq!(split(&whole[..1_048_578], 0), refused(1, 0));
}
