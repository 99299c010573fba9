use super::*;

/// The arrays with elements of the widths given, at places 0.
struct Stored {
    widths: [u32; 2],
    bytes: [Vec<u8>; 3],
}

impl Stored {
    fn new(widths: [u32; 2], data: &[i32], values: &[i32], counts: &[i32]) -> Stored {
        let [data_bits, value_bits] = widths;
        let bytes = [(data, data_bits), (values, value_bits), (counts, 32)];
        Stored { widths, bytes: bytes.map(|(numbers, bits)| number_bytes(numbers, bits)) }
    }

    fn arrays(&self) -> Arrays<'_> {
        let ([data_bits, value_bits], [data, value, repeat]) = (self.widths, &self.bytes);
        Arrays { data_bits, data, value_bits, value, repeat, first: First::default() }
    }

    fn read(&self, n: usize) -> Result<Vec<Option<i32>>, u32> {
        read_row(&self.arrays(), n).map(|row| elements(&row))
    }
}

fn elements(row: &Row) -> Vec<Option<i32>> {
    let element = |(&value, &mark): (&i32, &u8)| {
        assert!(mark == 0 || mark == 1 && value == 0);
        (mark == 0).then_some(value)
    };
    row.values.iter().zip(&row.marks).map(element).collect()
}

/// What bytes of 8 bits are read as.
fn bytes_read(
    n: usize,
    data: &[i32],
    values: &[i32],
    counts: &[i32],
) -> Result<Vec<Option<i32>>, u32> {
    Stored::new([8, 8], data, values, counts).read(n)
}

fn good(values: &[i32]) -> Vec<Option<i32>> {
    values.iter().map(|&value| Some(value)).collect()
}

fn nine() -> impl Iterator<Item = [u32; 2]> {
    WIDTHS.into_iter().flat_map(|data| WIDTHS.map(|value| [data, value]))
}

#[test]
fn flags_are_the_five_largest() {
    for bits in WIDTHS {
        let max = largest(bits);
        assert_eq!(max, [127, 32767, i32::MAX][bits.ilog2() as usize - 3]);
        assert_eq!(least(bits), -max - 1);
        for (below, flag) in (0..).zip(FLAGS) {
            assert_eq!((Flag::of(max - below, max), flag.element(max)), (Some(flag), max - below));
        }
        assert!([max - 5, 0, -1, least(bits)]
            .iter()
            .all(|&element| Flag::of(element, max).is_none()));
    }
}

#[test]
fn each_flag_at_each_width() {
    for [data_bits, value_bits] in nine() {
        let flags = FLAGS.map(|flag| flag.element(largest(data_bits)));
        let [full, alike, bad_run, one_bad, fulls] = flags;
        let data = [full, 5, alike, -5, bad_run, 1, one_bad, fulls, 2, one_bad];
        let (low, high) = (least(value_bits), largest(value_bits));
        let stored = Stored::new(
            [data_bits, value_bits],
            &data,
            &[10, 20, high - 1, low, low, 7, high - 2],
            &[2, 3, 2],
        );
        let bad = [None; 3];
        let wanted = [
            &good(&[10, 15, 20, 20, 15])[..],
            &bad,
            &good(&[high - 1, high]),
            &bad[..1],
            &good(&[low, low, 7, 9]),
            &bad[..1],
            &good(&[high - 2]),
        ];
        assert_eq!(stored.read(17), Ok(wanted.concat()), "{data_bits} {value_bits}");
        let used = read_row(&stored.arrays(), 17).unwrap().used;
        assert_eq!(used, First { data: 10, value: 7, repeat: 3 });
    }
}

#[test]
fn values_beyond_their_width_come_of_differences() {
    let stored = Stored::new([16, 8], &[32767, 1000, -2000], &[127], &[]);
    assert_eq!(stored.read(3), Ok(good(&[127, 1127, -873])));
}

#[test]
fn the_least_element_is_a_difference() {
    assert_eq!(bytes_read(2, &[127, -128], &[5], &[]), Ok(good(&[5, -123])));
    let stored = Stored::new([32, 8], &[i32::MAX, i32::MIN], &[127], &[]);
    assert_eq!(stored.read(2), Ok(good(&[127, i32::MIN + 127])));
}

#[test]
fn bad_elements_that_end_a_row_take_no_value() {
    let ended = Ok(vec![Some(1), None, None]);
    assert_eq!(bytes_read(3, &[127, 125], &[1], &[2]), ended);
    assert_eq!(bytes_read(3, &[127, 124], &[1], &[]), Err(25));
    assert_eq!(bytes_read(2, &[127, 124], &[1], &[]), Ok(vec![Some(1), None]));
    assert_eq!(bytes_read(2, &[125], &[], &[2]), Ok(vec![None, None]));
    assert_eq!(bytes_read(1, &[124], &[], &[]), Ok(vec![None]));
    assert_eq!(bytes_read(3, &[125], &[], &[2]), Err(25));
    assert_eq!(bytes_read(3, &[125], &[9], &[2]), Ok(vec![None, None, Some(9)]));
}

#[test]
fn the_first_element_is_a_flag() {
    for first in [-128, -1, 0, 1, 122] {
        assert_eq!(bytes_read(1, &[first], &[], &[]), Err(27));
    }
    assert_eq!(bytes_read(1, &[], &[], &[]), Err(25));
}

#[test]
fn places_and_runs_within_their_arrays() {
    // A value, a count, an element of DATA, a value of several.
    assert_eq!(bytes_read(1, &[127], &[], &[]), Err(25));
    for flag in [126, 125, 123] {
        assert_eq!(bytes_read(1, &[flag], &[1], &[]), Err(25));
        assert_eq!(bytes_read(2, &[flag], &[1, 2, 3], &[3]), Err(25));
        assert_eq!(bytes_read(2, &[flag], &[1, 2, 3], &[i32::MAX]), Err(25));
    }
    assert_eq!(bytes_read(2, &[127], &[1], &[]), Err(25));
    assert_eq!(bytes_read(3, &[123], &[1, 2], &[3]), Err(25));
}

#[test]
fn counts_are_at_least_one() {
    for count in [0, -1, i32::MIN] {
        for flag in [126, 125, 123] {
            assert_eq!(bytes_read(2, &[flag], &[1], &[count]), Err(26));
        }
        // 25 first where a value is asked for.
        assert_eq!(bytes_read(2, &[126], &[], &[count]), Err(25));
        assert_eq!(bytes_read(2, &[125], &[], &[count]), Err(25));
        assert_eq!(bytes_read(2, &[123], &[], &[count]), Err(26));
    }
}

#[test]
fn sums_within_32_bits() {
    let read = |data: &[i32], value| Stored::new([8, 32], data, &[value], &[]).read(data.len());
    assert_eq!(read(&[127, 1], i32::MAX - 1), Ok(good(&[i32::MAX - 1, i32::MAX])));
    assert_eq!(read(&[127, 1], i32::MAX), Err(28));
    assert_eq!(read(&[127, -1], i32::MIN + 1), Ok(good(&[i32::MIN + 1, i32::MIN])));
    assert_eq!(read(&[127, -1], i32::MIN), Err(28));
}

#[test]
fn the_earliest_fault_counts() {
    assert_eq!(bytes_read(9, &[127, 126, 127], &[1, 2], &[0]), Err(26));
    assert_eq!(bytes_read(9, &[127, 127, 126], &[1], &[0]), Err(25));
    assert_eq!(bytes_read(1, &[0], &[], &[0]), Err(27));
}

#[test]
fn places_are_each_for_their_array() {
    let stored = Stored::new([16, 32], &[0, 32765, 3, 9], &[8, 8, 70_000], &[4, 1]);
    let first = First { data: 1, value: 2, repeat: 1 };
    let row = read_row(&Arrays { first, ..stored.arrays() }, 3).unwrap();
    assert_eq!(elements(&row), [None, Some(70_000), Some(70_003)]);
    for far in [4, 5, 1 << 32, 1 << 63, u64::MAX] {
        let outside = |first| read_row(&Arrays { first, ..stored.arrays() }, 3).map(|_| ());
        assert_eq!(outside(First { data: far, ..first }), Err(25));
        assert_eq!(outside(First { value: far, ..first }), Err(25));
        assert_eq!(outside(First { repeat: far, ..first }), Err(25));
    }
}

#[test]
fn the_call_writes_what_it_counts() {
    let stored = Stored::new([8, 16], &[127, 124], &[-2], &[]);
    let (mut row, mut marks) = ([7; 10], [7; 4]);
    let answer = read(2, &stored.arrays(), &mut row, &mut marks);
    assert_eq!(answer.pair(), (0, 2));
    assert_eq!(row, [254, 255, 255, 255, 0, 0, 0, 0, 7, 7]);
    assert_eq!(marks, [0, 1, 7, 7]);
}

#[test]
fn the_call_asks_for_widths_and_then_for_room() {
    let stored = Stored::new([8, 16], &[0], &[], &[]);
    let number = |n, [data_bits, value_bits]: [u32; 2], row: usize, marks: usize| {
        let arrays = Arrays { data_bits, value_bits, ..stored.arrays() };
        let (mut row, mut marks) = (vec![7; row], vec![7; marks]);
        let (number, count) = read(n, &arrays, &mut row, &mut marks).pair();
        assert!(count == 0 && row.iter().chain(&marks).all(|&byte| byte == 7));
        number
    };
    for other in [0, 7, 24, 64, 256 + 8, u32::MAX] {
        assert_eq!(number(1, [other, 8], 0, 0), 14);
        assert_eq!(number(0, [8, other], 0, 0), 14);
    }
    for widths in nine() {
        assert_eq!(number(2, widths, 7, 2), 5);
        assert_eq!(number(2, widths, 8, 1), 5);
        assert_eq!(number(1, widths, 4, 1), if widths[0] == 8 { 27 } else { 25 });
        assert_eq!(number(0, widths, 0, 0), 0);
    }
    for huge in [1 << 32, 1 << 62, 1 << 63, u64::MAX] {
        assert_eq!(number(huge, [8, 8], 8, 8), 5);
    }
}

#[test]
fn incomplete_elements_count_for_nothing() {
    let mut stored = Stored::new([16, 32], &[32766], &[5], &[2]);
    assert_eq!(stored.read(2), Ok(good(&[5, 5])));
    for array in 0..3 {
        let whole = stored.bytes.clone();
        stored.bytes[array].pop();
        assert_eq!(stored.read(2), Err(25), "{array}");
        stored.bytes = whole;
        stored.bytes[array].push(9);
        assert_eq!(stored.read(2), Ok(good(&[5, 5])), "{array}");
    }
}

#[test]
fn rows_are_written_in_the_manner_of_ary_delta() {
    let written = |row: &[Option<i32>]| write(row, 8);
    let arrays = |data: &[i32], values: &[i32], counts: &[i32]| Written {
        data: data.to_vec(),
        values: values.to_vec(),
        counts: counts.to_vec(),
    };
    assert_eq!(written(&[]), Written::default());
    assert_eq!(written(&good(&[5, 6, 6, 6])), arrays(&[127, 1, 0, 0], &[5], &[]));
    assert_eq!(written(&good(&[5, 6, 6, 6, 6])), arrays(&[127, 126], &[5, 6], &[4]));
    // Differences are -127 to 122.
    assert_eq!(written(&good(&[0, 122, -5])), arrays(&[127, 122, -127], &[0], &[]));
    assert_eq!(written(&good(&[0, 123])), arrays(&[123], &[0, 123], &[2]));
    assert_eq!(written(&good(&[0, 1, -127])), arrays(&[127, 1, 127], &[0, -127], &[]));
    let far = good(&[i32::MIN, i32::MAX, i32::MIN, i32::MIN]);
    assert_eq!(written(&far), arrays(&[123, 0], &[i32::MIN, i32::MAX, i32::MIN], &[3]));
    let bad = [None, Some(3), None, None, Some(3), Some(3), None];
    assert_eq!(written(&bad), arrays(&[124, 125, 0, 124], &[3, 3], &[2]));
    assert_eq!(written(&[None; 4]), arrays(&[125], &[], &[4]));
}

#[test]
fn a_row_that_is_written_reads_back() {
    let row = [
        &good(&[3, 4, 4, 4, 4, 100, -100, 100])[..],
        &[None, Some(-1), Some(-1), None, None, None],
        &good(&[7; 6]),
        &[Some(120), None],
    ];
    let row = row.concat();
    for [data_bits, value_bits] in nine() {
        let bytes = write(&row, data_bits).bytes(data_bits, value_bits);
        let stored = Stored { widths: [data_bits, value_bits], bytes };
        assert_eq!(stored.read(row.len()), Ok(row.clone()), "{data_bits} {value_bits}");
    }
}
