//! Paper 7 in tables and rule files written by hand: which module may call which. Each verdict and text is worked out
//! from the documents.

mod common;

use common::*;
use reference::row::{write_rows, Row};
use reference::rules::given;

type Verdict = Result<usize, (u32, usize)>;

/// Modules 0 to 2. Module 0 calls itself in row 2 and module 1 in row 3; module 1 calls module 0 in row 10, which no walk
/// reaches; module 2 has no procedures.
fn bakery() -> Vec<Row> {
    let first = [trusted(), public(), call(1), call(2), ret(), private(), ret()];
    let second = [guest(), public(), jump(2), call(0), ret()];
    [&first[..], &second, &[guest()]].concat()
}

const ROWS: usize = 13;

/// A rule row, byte by byte.
fn rule(allow: u8, callers: [u8; 2], called: [u8; 2]) -> [u8; 16] {
    [1, allow, 0, 0, callers[0], callers[1], called[0], called[1], 0, 0, 0, 0, 0, 0, 0, 0]
}

fn one_for_all(allow: u8) -> [u8; 16] {
    rule(allow, [0, 15], [0, 15])
}

/// A row for each pair of so many modules; those listed are forbidden.
fn singles(modules: u8, forbidden: &[(u8, u8)]) -> Vec<[u8; 16]> {
    let mut rows = Vec::new();
    for caller in 0..modules {
        for called in 0..modules {
            let allow = !forbidden.contains(&(caller, called));
            rows.push(rule(allow.into(), [caller, caller], [called, called]));
        }
    }
    rows
}

fn under(table: &[Row], rules: &[[u8; 16]]) -> Verdict {
    reference::judge_under(&write_rows(table), Some(&rules.concat()))
}

/// The verdict on the bakery's table.
fn verdict(rules: &[[u8; 16]]) -> Verdict {
    under(&bakery(), rules)
}

#[test]
fn one_row_for_all() {
    accepted(&bakery());
    assert_eq!(verdict(&[one_for_all(1)]), Ok(ROWS));
    assert_eq!(verdict(&[one_for_all(0)]), Err((22, 2)));
    // No further than the modules present.
    assert_eq!(verdict(&[rule(1, [0, 2], [0, 2])]), Ok(ROWS));
    assert_eq!(verdict(&[rule(1, [0, 1], [0, 2])]), Err((21, 32)));
    assert_eq!(verdict(&[rule(1, [0, 2], [0, 1])]), Err((21, 2)));
}

// 20

#[test]
fn lengths() {
    let judge = |bytes: &[u8]| reference::judge_under(&write_rows(&bakery()), Some(bytes));
    assert_eq!(judge(&[]), Err((20, 0)));
    let row = one_for_all(1);
    assert_eq!(judge(&row[..1]), Err((20, 0)));
    assert_eq!(judge(&row[..15]), Err((20, 0)));
    assert_eq!(judge(&row), Ok(ROWS));
    assert_eq!(judge(&[&row[..], &[0]].concat()), Err((20, 0)));
    assert_eq!(judge(&[&row[..], &[1; 15]].concat()), Err((20, 0)));
    // All but the first reach past the modules present only.
    let mut rows = vec![row];
    rows[0] = rule(1, [0, 7], [0, 7]);
    rows.resize(256, rule(0, [8, 15], [0, 15]));
    let bytes = rows.concat();
    assert_eq!((bytes.len(), judge(&bytes)), (4_096, Ok(ROWS)));
    assert_eq!(judge(&bytes[..4_095]), Err((20, 0)));
    assert_eq!(judge(&bytes[..4_080]), Ok(ROWS));
    assert_eq!(judge(&[&bytes[..], &[1]].concat()), Err((20, 0)));
    rows.push(rows[255]);
    let bytes = rows.concat();
    assert_eq!((bytes.len(), judge(&bytes)), (4_112, Err((20, 0))));
    assert_eq!(judge(&bytes.repeat(4)), Err((20, 0)));
}

#[test]
fn a_length_is_told_before_a_bad_row() {
    let bad = [[1; 16]; 3].concat();
    let judge = |bytes: &[u8]| reference::judge_under(&write_rows(&bakery()), Some(bytes));
    assert_eq!(judge(&[&one_for_all(1)[..], &bad].concat()), Err((20, 1)));
    assert_eq!(judge(&[&one_for_all(1)[..], &bad, &[0]].concat()), Err((20, 0)));
}

/// The second row covers nothing that is present, whatever stands in one of its bytes.
#[test]
fn every_value_of_every_byte() {
    let first = rule(1, [0, 2], [0, 2]);
    for place in 0..16 {
        for value in 0..=255 {
            let mut second = rule(1, [8, 12], [5, 9]);
            second[place] = value;
            let good = match place {
                0 => value == 1,
                1 => value <= 1,
                4 => value <= 12,
                5 => (8..=15).contains(&value),
                6 => value <= 9,
                7 => (5..=15).contains(&value),
                _ => value == 0,
            };
            let expected = if good { Ok(ROWS) } else { Err((20, 1)) };
            assert_eq!(verdict(&[first, second]), expected, "byte {place} is {value}");
            let expected = if good { Ok(ROWS) } else { Err((20, 0)) };
            assert_eq!(verdict(&[second, first]), expected, "byte {place} is {value}");
        }
    }
}

#[test]
fn first_and_last() {
    let first = rule(1, [0, 2], [0, 2]);
    for (callers, called, good) in [
        ([15, 15], [0, 15], true),
        ([3, 3], [3, 3], true),
        ([4, 3], [3, 3], false),
        ([3, 3], [4, 3], false),
        ([15, 14], [0, 15], false),
        ([1, 0], [15, 15], false),
        ([16, 16], [0, 0], false),
        ([0, 0], [16, 16], false),
        ([15, 16], [0, 0], false),
        ([16, 15], [0, 0], false),
        ([255, 255], [0, 0], false),
    ] {
        let expected = if good { Ok(ROWS) } else { Err((20, 1)) };
        assert_eq!(verdict(&[first, rule(1, callers, called)]), expected, "{callers:?} {called:?}");
    }
}

#[test]
fn the_lowest_bad_row() {
    let good = rule(1, [8, 8], [8, 8]);
    let bad = rule(2, [8, 8], [8, 8]);
    let worse = [255; 16];
    let mut rows = vec![good; 256];
    rows[0] = rule(1, [0, 7], [0, 7]);
    assert_eq!(verdict(&rows), Ok(ROWS));
    rows[255] = bad;
    assert_eq!(verdict(&rows), Err((20, 255)));
    rows[200] = worse;
    rows[100] = bad;
    assert_eq!(verdict(&rows), Err((20, 100)));
    rows[0] = bad;
    assert_eq!(verdict(&rows), Err((20, 0)));
}

// 21

#[test]
fn each_pair_of_modules_present_needs_a_row() {
    let all = singles(3, &[]);
    assert_eq!(verdict(&all), Ok(ROWS));
    for (place, pair) in [0, 1, 2, 16, 17, 18, 32, 33, 34].into_iter().enumerate() {
        let mut rows = all.clone();
        rows.remove(place);
        assert_eq!(verdict(&rows), Err((21, pair)));
        // Two rows for it, which agree or do not.
        let mut rows = all.clone();
        rows.push(all[place]);
        assert_eq!(verdict(&rows), Err((21, pair)));
        rows[9][1] = 0;
        assert_eq!(verdict(&rows), Err((21, pair)));
        rows[place][1] = 0;
        assert_eq!(verdict(&rows), Err((21, pair)));
        // One of the two goes beyond it.
        let mut rows = all.clone();
        let [caller, called] = [(pair / 16) as u8, (pair % 16) as u8];
        rows.insert(0, rule(1, [caller, 15], [called, 15]));
        assert_eq!(verdict(&rows), Err((21, pair)));
    }
}

#[test]
fn rows_that_agree() {
    assert_eq!(verdict(&[one_for_all(1), one_for_all(1)]), Err((21, 0)));
    assert_eq!(verdict(&[one_for_all(0), one_for_all(0)]), Err((21, 0)));
    assert_eq!(verdict(&[one_for_all(1), one_for_all(0)]), Err((21, 0)));
    assert_eq!(verdict(&[one_for_all(1); 256]), Err((21, 0)));
    assert_eq!(verdict(&[rule(1, [0, 1], [0, 15]), rule(1, [1, 15], [0, 15])]), Err((21, 16)));
    assert_eq!(verdict(&[rule(1, [0, 15], [0, 1]), rule(1, [0, 15], [1, 15])]), Err((21, 1)));
}

#[test]
fn the_lowest_pair() {
    // (1, 0) has no row and (0, 2) has two.
    let rows = [rule(1, [0, 0], [0, 15]), rule(1, [0, 15], [2, 2]), rule(1, [1, 15], [1, 1]), rule(1, [2, 15], [0, 0])];
    assert_eq!(verdict(&rows), Err((21, 2)));
    // The second row without caller 0.
    let mut mended = rows;
    mended[1][4] = 1;
    assert_eq!(verdict(&mended), Err((21, 16)));
    mended[3][4] = 1;
    assert_eq!(verdict(&mended), Ok(ROWS));
    // (0, 1) and (1, 0) both: that with the lower caller.
    let mut rows = singles(3, &[]);
    rows.remove(3);
    rows.remove(1);
    assert_eq!(verdict(&rows), Err((21, 1)));
}

#[test]
fn past_the_modules_present() {
    let present = rule(1, [0, 2], [0, 2]);
    // Under none, one or several there.
    assert_eq!(verdict(&[present]), Ok(ROWS));
    assert_eq!(verdict(&[present, rule(0, [3, 15], [0, 15])]), Ok(ROWS));
    assert_eq!(verdict(&[rule(0, [3, 15], [0, 15]), rule(1, [0, 15], [3, 15]), present]), Ok(ROWS));
    assert_eq!(verdict(&[present, rule(0, [3, 3], [3, 3]), rule(1, [3, 3], [3, 3])]), Ok(ROWS));
    // Nothing else.
    assert_eq!(verdict(&[rule(1, [3, 15], [0, 15])]), Err((21, 0)));
    assert_eq!(verdict(&[rule(1, [0, 15], [3, 15])]), Err((21, 0)));
    assert_eq!(verdict(&[rule(1, [0, 2], [0, 2]), rule(1, [2, 15], [2, 15])]), Err((21, 34)));
}

#[test]
fn as_many_pairs_as_modules() {
    let mut rows = vec![guest()];
    for modules in 1..=16 {
        let last = modules - 1;
        assert_eq!(under(&rows, &singles(modules, &[])), Ok(rows.len()));
        assert_eq!(under(&rows, &[rule(0, [0, last], [0, last])]), Ok(rows.len()));
        let mut others = singles(modules, &[]);
        others.pop();
        others.push(rule(1, [0, 0], [15, 15]));
        // With sixteen modules (0, 15) has two rows then.
        let lowest = if modules == 16 { 15 } else { 17 * usize::from(last) };
        assert_eq!(under(&rows, &others), Err((21, lowest)));
        rows.push(guest());
    }
    // A seventeenth module is no table.
    assert_eq!(under(&rows, &[one_for_all(1)]), Err((3, 16)));
    rows.pop();
    // 256 rows and no more.
    let mut all = singles(16, &[]);
    all.reverse();
    assert_eq!((all.len(), under(&rows, &all)), (256, Ok(16)));
    all.remove(0);
    assert_eq!(under(&rows, &all), Err((21, 255)));
    all.push(all[0]);
    assert_eq!(under(&rows, &all), Err((21, 254)));
}

// 22

#[test]
fn forbidden_calls() {
    let used = [((0, 0), 2), ((0, 1), 3), ((1, 0), 10)];
    for (pair, row) in used {
        assert_eq!(verdict(&singles(3, &[pair])), Err((22, row)));
    }
    // All others, alone and together.
    let others = [(0, 2), (1, 1), (1, 2), (2, 0), (2, 1), (2, 2)];
    for pair in others {
        assert_eq!(verdict(&singles(3, &[pair])), Ok(ROWS));
        for (used, row) in used {
            assert_eq!(verdict(&singles(3, &[pair, used])), Err((22, row)));
        }
    }
    assert_eq!(verdict(&singles(3, &others)), Ok(ROWS));
}

#[test]
fn the_lowest_forbidden_call() {
    assert_eq!(verdict(&singles(3, &[(1, 0), (0, 1)])), Err((22, 3)));
    assert_eq!(verdict(&singles(3, &[(1, 0), (0, 0)])), Err((22, 2)));
    // The order of rule rows says nothing.
    let mut rows = singles(3, &[(1, 0), (0, 1)]);
    rows.reverse();
    assert_eq!(verdict(&rows), Err((22, 3)));
}

#[test]
fn calls_within_a_module() {
    // 0 guest, 1 public, 2 Call of itself, 3 ret; 4 trusted, 5 public, 6 Call of the private one, 7 ret, 8 private, 9 ret.
    let rows = [guest(), public(), call(0), ret(), trusted(), public(), call(2), ret(), private(), ret()];
    let apart = [rule(1, [0, 0], [0, 0]), rule(1, [1, 1], [1, 1]), rule(0, [0, 0], [1, 1]), rule(0, [1, 1], [0, 0])];
    assert_eq!(under(&rows, &apart), Ok(10));
    let mut first = apart;
    first[0][1] = 0;
    assert_eq!(under(&rows, &first), Err((22, 2)));
    let mut second = apart;
    second[1][1] = 0;
    assert_eq!(under(&rows, &second), Err((22, 6)));
}

#[test]
fn caller_and_called() {
    // Module 0 is called by the module of row 4 (row 6) and by no other.
    let rows = [guest(), public(), ret(), guest(), guest(), public(), call(0), ret()];
    let only = |allowed: (u8, u8)| {
        let all: Vec<(u8, u8)> = (0..3).flat_map(|caller| (0..3).map(move |called| (caller, called))).collect();
        let forbidden: Vec<(u8, u8)> = all.into_iter().filter(|&pair| pair != allowed).collect();
        under(&rows, &singles(3, &forbidden))
    };
    // Modules are counted with those that have no procedures: the caller is module 2.
    assert_eq!(only((2, 0)), Ok(8));
    for pair in [(0, 2), (1, 0), (0, 1), (0, 0), (2, 2), (2, 1)] {
        assert_eq!(only(pair), Err((22, 6)));
    }
}

#[test]
fn rows_that_no_walk_reaches() {
    // 0 guest, 1 public, 2 ret, 3 Call of module 1, 4 ret; 5 guest, 6 public, 7 ret.
    let rows = [guest(), public(), ret(), call(1), ret(), guest(), public(), ret()];
    assert_eq!(under(&rows, &singles(2, &[(0, 1)])), Err((22, 3)));
    assert_eq!(under(&rows, &singles(2, &[(1, 0), (0, 0), (1, 1)])), Ok(8));
}

// Order

#[test]
fn in_the_order_20_21_22() {
    // (2, 2) has no row, (0, 0) is forbidden, and the last row is bad.
    let mut rows = singles(3, &[(0, 0)]);
    rows[8] = rule(1, [16, 16], [2, 2]);
    assert_eq!(verdict(&rows), Err((20, 8)));
    rows.pop();
    assert_eq!(verdict(&rows), Err((21, 34)));
    rows.push(rule(1, [2, 2], [2, 2]));
    assert_eq!(verdict(&rows), Err((22, 2)));
}

#[test]
fn after_all_passes_over_the_table() {
    let judge = |rows: &[Row]| under(rows, &[[0; 16]]);
    assert_eq!(judge(&bakery()), Err((20, 0)));
    assert_eq!(judge(&[]), Err((1, 0)));
    assert_eq!(judge(&[guest(), num()]), Err((2, 1)));
    assert_eq!(judge(&[guest(), public()]), Err((5, 1)));
    assert_eq!(judge(&[guest(), public(), pop(), ret()]), Err((7, 2)));
    assert_eq!(judge(&[guest(), public(), local(N), mv(0), pop(), ret()]), Err((11, 3)));
    let leak = [trusted(), ty(), guarded(), public(), param(rec_ref(0)), result(R), mv(0), field(0, 0), ret()];
    assert_eq!(judge(&leak), Err((14, 8)));
    // A Call that is forbidden, and a leak below it.
    let rows = [&leak[..], &[public(), call(1), ret()]].concat();
    assert_eq!(under(&rows, &[one_for_all(0)]), Err((14, 8)));
}

#[test]
fn before_list_and_buffer() {
    let run = |list: &[u8], rules: &[u8], text_len| {
        reference::run(&write_rows(&bakery()), list, Some(rules), text_len).map(|text| text.len())
    };
    let (good, bad, forbidding) = (one_for_all(1), [0; 16], one_for_all(0));
    let list = write_rows(&calls(&[(0, &[])]));
    let bad_lists = [&list[..15], &write_rows(&calls(&[(9, &[])]))].map(|list| list.to_vec());
    for (list, number) in bad_lists.iter().zip([15, 16]) {
        for text_len in [0, BUFFER] {
            assert_eq!(run(list, &good, text_len), Err((number, 0)));
            assert_eq!(run(list, &bad, text_len), Err((20, 0)));
            assert_eq!(run(list, &[], text_len), Err((20, 0)));
            assert_eq!(run(list, &rule(1, [0, 0], [0, 0]), text_len), Err((21, 1)));
            assert_eq!(run(list, &forbidding, text_len), Err((22, 2)));
        }
    }
    assert_eq!(run(&list, &good, BUFFER - 1), Err((17, 0)));
    assert_eq!(run(&list, &bad, BUFFER - 1), Err((20, 0)));
    assert_eq!(run(&list, &forbidding, BUFFER - 1), Err((22, 2)));
    assert_eq!(run(&list, &good, BUFFER), Ok("call 0 done\n".len()));
}

// No file

#[test]
fn without_a_file_bytes_are_not_looked_at() {
    let (table, list) = (write_rows(&bakery()), write_rows(&calls(&[(0, &[])])));
    let malformed: [&[u8]; 4] = [&[], &[1], &[255; 16], &[0; 9_000]];
    for bytes in malformed {
        assert_eq!(given(bytes, 0), None);
        assert_eq!(reference::judge_under(&table, given(bytes, 0)), Ok(ROWS));
        assert_eq!(reference::run(&table, &list, given(bytes, 0), BUFFER), Ok(b"call 0 done\n".to_vec()));
        for number in [1, 2, 255, 256, 1 << 16, 1 << 32, 1 << 63, u64::MAX] {
            assert_eq!(given(bytes, number), Some(bytes));
            assert_eq!(reference::judge_under(&table, given(bytes, number)), Err((20, 0)));
            assert_eq!(reference::run(&table, &list, given(bytes, number), BUFFER), Err((20, 0)));
        }
    }
    assert_eq!(reference::judge_under(&table, given(&one_for_all(0), 0)), Ok(ROWS));
    assert_eq!(reference::judge_under(&table, given(&one_for_all(0), 1 << 32)), Err((22, 2)));
}

// Runs

/// Module 0: procedure 0 gives 7 to procedure 1 of module 1, which gives it to procedure 2 of module 2 and adds 1.
fn relay() -> Vec<Row> {
    vec![
        guest(),
        public(),
        result(N),
        load(7),
        call(1),
        ret(),
        guest(),
        public(),
        param(N),
        result(N),
        mv(0),
        call(2),
        load(1),
        arith(ADD),
        ret(),
        guest(),
        public(),
        param(N),
        result(N),
        mv(0),
        ret(),
    ]
}

#[test]
fn a_run_under_a_file_prints_what_it_prints_without() {
    let (table, list) = (write_rows(&relay()), write_rows(&calls(&[(0, &[]), (1, &[4]), (2, &[5])])));
    let run = |rules: Option<&[u8]>| reference::run(&table, &list, rules, BUFFER);
    let text = b"call 0 done 8\ncall 1 done 5\ncall 2 done 5\n".to_vec();
    assert_eq!(run(None), Ok(text.clone()));
    assert_eq!(run(Some(&one_for_all(1))), Ok(text.clone()));
    let others = [(0, 0), (0, 2), (1, 0), (1, 1), (2, 0), (2, 1), (2, 2)];
    assert_eq!(run(Some(&singles(3, &others).concat())), Ok(text));
    assert_eq!(run(Some(&singles(3, &[(1, 2)]).concat())), Err((22, 11)));
    assert_eq!(run(Some(&singles(3, &[(0, 1)]).concat())), Err((22, 4)));
}

#[test]
fn the_list_enters_by_no_pair() {
    // No Call in the table: all may be forbidden.
    let table = [guest(), public(), result(N), load(3), ret(), trusted(), public(), result(N), load(4), ret()];
    let list = write_rows(&calls(&[(0, &[]), (1, &[])]));
    let text = reference::run(&write_rows(&table), &list, Some(&one_for_all(0)), BUFFER);
    assert_eq!(text, Ok(b"call 0 done 3\ncall 1 done 4\n".to_vec()));
}

#[test]
fn an_empty_list_is_judged_under_the_file() {
    let run = |rules: &[u8]| reference::run(&write_rows(&relay()), &[], Some(rules), BUFFER);
    assert_eq!(run(&one_for_all(1)), Ok(Vec::new()));
    assert_eq!(run(&one_for_all(0)), Err((22, 4)));
    assert_eq!(run(&[]), Err((20, 0)));
}
