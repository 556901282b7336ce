//! The safe comparison over the compiled library: the files of uploads, and what the iterator says of itself.

use modelardb_rattle::compare::{
    Difference, Side, SideRefused, Upload, differences, differences_of_files,
};
use modelardb_rattle::{ErrorBound, MacaqueV, Opening, Refusal};

/// A lossless stream, and its writer.
fn written(values: &[f32], opening: Opening) -> Vec<u8> {
    let mut bytes = vec![0; 6 * values.len()];
    let mut writer = MacaqueV::new(ErrorBound::Lossless, opening).expect("an allowed bound");
    writer.compress_values(values, &mut bytes).expect("room");
    bytes.truncate(writer.bytes_used());
    bytes
}

fn upload(bytes: &[u8], count: usize, opening: Opening) -> Upload<'_> {
    Upload {
        bytes,
        count,
        opening,
    }
}

#[test]
fn a_file_is_read_as_it_was_made() {
    for opening in [
        Opening::First,
        Opening::On(-0.0),
        Opening::on_bits(0x3F80_0001),
    ] {
        for count in [0, 1, 255, 256, 65_536] {
            let made = upload(&[1, 2, 3], count, opening);
            let file = made.to_file().expect("an allowed count");
            assert_eq!(Upload::of_file(&file), Ok(made));
        }
    }
    let odd = upload(&[], 1, Opening::on_bits(0x7FC1_2345));
    let file = odd.to_file().expect("an allowed count");
    assert_eq!(file, [1, 0x45, 0x23, 0xC1, 0x7F, 1, 0, 0, 0]);
}

#[test]
fn a_head_that_is_not_allowed_is_refused() {
    let head = [0, 0, 0, 0, 0, 1, 0, 1, 0];
    let early = Refusal::EndsEarly { value: 0, place: 0 };
    for length in 0..head.len() {
        assert_eq!(Upload::of_file(&head[..length]), Err(early));
    }
    assert_eq!(Upload::of_file(&head), Err(Refusal::OverLimit), "65,537");
    let mode_2 = [2, 0, 0, 0, 0, 1, 0, 0, 0];
    assert_eq!(Upload::of_file(&mode_2), Err(Refusal::OverLimit));
    let too_many = upload(&[], 65_537, Opening::First);
    assert_eq!(too_many.to_file(), Err(Refusal::OverLimit));
}

#[test]
fn differences_rise_and_turn_with_the_sides() {
    let (left, right) = ([1.0, 2.0, 3.0, 4.0], [1.0, 2.5, 3.0, -4.0, 0.0, -0.0]);
    let bytes = [
        written(&left, Opening::First),
        written(&right, Opening::On(1.0)),
    ];
    let left = upload(&bytes[0], 4, Opening::First);
    let right = upload(&bytes[1], 6, Opening::On(1.0));
    let mut found = differences(left, right).expect("two streams of ours");
    assert_eq!(found.size_hint(), (2, Some(6)));
    let first = found.next().expect("value 1");
    assert_eq!(
        (first.index, first.left_value(), first.right_value()),
        (1, Some(2.0), Some(2.5))
    );
    assert_eq!(found.size_hint(), (2, Some(4)));
    let rest: Vec<Difference> = found.by_ref().collect();
    let indices: Vec<usize> = rest.iter().map(|difference| difference.index).collect();
    assert_eq!(indices, [3, 4, 5]);
    assert_eq!((found.next(), found.next()), (None, None));

    let turned = differences(right, left).expect("two streams of ours");
    let back = turned.map(|Difference { index, left, right }| Difference {
        index,
        left: right,
        right: left,
    });
    assert!(back.eq([vec![first], rest].concat()));
    assert_eq!(
        differences(left, left).expect("a stream of ours").count(),
        0
    );
}

#[test]
fn the_left_stream_is_refused_first() {
    let good = upload(&[0x80], 1, Opening::On(1.0));
    let no_window = upload(&[0x00], 1, Opening::On(1.0));
    let too_many = upload(&[], 65_537, Opening::First);
    let refused = |left, right| {
        let SideRefused { side, refusal } = differences(left, right).expect_err("a refusal");
        (side, refusal.number())
    };
    assert_eq!(refused(no_window, too_many), (Side::Left, 6));
    assert_eq!(refused(too_many, no_window), (Side::Left, 3));
    assert_eq!(refused(good, no_window), (Side::Right, 6));
    assert_eq!(refused(good, too_many), (Side::Right, 3));

    // Of files too: the left stream before the right head.
    let file = no_window.to_file().expect("an allowed count");
    let SideRefused { side, refusal } = differences_of_files(&file, &[2; 9]).expect_err("both");
    assert_eq!((side, refusal.number()), (Side::Left, 6));
}
