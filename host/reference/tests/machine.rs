//! One call of one block: the cases C1 to C12 of the scope document with all
//! their values, and the rules beside them.

use reference::layout::{entry as entry_at, piece as piece_at, record as record_at};
use reference::machine::{
    call, time_between, Entry, Event, Inputs, Piece, Record, Report, ABORTED, BUSY, DONE, ERROR,
    MAX_PIECES, OUT_OF_STEP,
};

const POSITION: u8 = 1;

/// "start 1, reset reply complete, one piece a call, both clocks 0 and all else
/// zero, unless given."
fn entry() -> Entry {
    Entry {
        inputs: Inputs {
            start: true,
            abort: false,
        },
        piece_count: 1,
        abort_reply: 0,
        reset_reply: 1,
        abort_code: 0,
        job: 0,
        time_limit: 0,
        time_out: 0,
        clock: 0,
        pieces: [Piece::ZERO; MAX_PIECES],
    }
}

fn piece(reply: u8, code: u16, clock: u32) -> Piece {
    Piece { reply, code, clock }
}

fn working(clock: u32) -> Piece {
    piece(0, 0, clock)
}

fn complete(clock: u32) -> Piece {
    piece(1, 0, clock)
}

fn pieces(list: &[Piece]) -> Entry {
    let mut entry = entry();
    entry.piece_count = list.len() as u8;
    entry.pieces[..list.len()].copy_from_slice(list);
    entry
}

fn job(job: u64, piece: Piece) -> Entry {
    Entry {
        job,
        ..pieces(&[piece])
    }
}

fn stopped(entry: Entry) -> Entry {
    Entry {
        inputs: Inputs {
            start: false,
            ..entry.inputs
        },
        ..entry
    }
}

/// Calls with the entry's own input bits, and checks the report against the
/// record and all bytes against their decoded form.
fn step(kind: u8, record: &mut Record, entry: &Entry) -> (Report, Vec<Event>) {
    let bytes = entry.encode();
    assert!(Entry::is_formed(&bytes));
    assert_eq!(Entry::decode(&bytes), *entry);
    assert!(Record::is_sound(&record.encode(), kind));
    let (report, events) = call(kind, POSITION, entry.inputs, entry, record);
    assert!(Record::is_sound(&record.encode(), kind), "{record:?}");
    assert_eq!(Record::decode(&record.encode()), *record);
    assert_eq!(Report::decode(&report.encode()), report);
    assert_eq!(
        (report.flags, report.step, report.code, report.job),
        (record.flags, record.step, record.code, record.job)
    );
    for event in events.as_slice() {
        assert_eq!(Event::decode(&event.encode()), *event);
    }
    (report, events.as_slice().to_vec())
}

/// Flags, pieces used, passes, step, code, job.
fn report(flags: u8, pieces: u8, passes: u8, step: u8, code: u16, job: u64) -> Report {
    Report {
        flags,
        pieces,
        passes,
        step,
        code,
        job,
    }
}

fn event(kind: u8, code: u16, job: u64) -> Event {
    Event {
        kind,
        position: POSITION,
        code,
        job,
    }
}

fn start(job: u64) -> Event {
    event(Event::START, 0, job)
}

/// The first call of a fresh block.
fn first(kind: u8, entry: &Entry) -> (Record, Report, Vec<Event>) {
    let mut record = Record::fresh();
    let (report, events) = step(kind, &mut record, entry);
    (record, report, events)
}

#[test]
fn c1() {
    let (record, shown, events) = first(1, &stopped(entry()));
    assert_eq!(shown, report(0, 0, 1, Record::DORMANT, 0, 0));
    assert_eq!(record, Record::fresh());
    assert_eq!(events, []);
}

#[test]
fn c2_c3_c4() {
    let (done, shown, events) = first(1, &job(7, complete(0)));
    assert_eq!(shown, report(DONE, 1, 3, Record::DONE, 0, 7));
    assert_eq!(events, [start(7), event(Event::DONE, 0, 7)]);
    assert_eq!(done.reset_request, 0);

    let mut record = done;
    let (shown, events) = step(1, &mut record, &entry());
    assert_eq!(shown, report(DONE, 0, 1, Record::DONE, 0, 7));
    assert_eq!(events, []);
    assert_eq!(record, done);

    let mut record = done;
    let (shown, events) = step(1, &mut record, &stopped(entry()));
    assert_eq!(shown, report(0, 0, 2, Record::DORMANT, 0, 0));
    assert_eq!(events, []);
    assert_eq!(record, Record::fresh());
}

/// The first two calls of C5 and C6: a job working; start 0, complete.
fn done_unseen(kind: u8, number: u64) -> Record {
    let (mut record, shown, events) = first(kind, &job(number, working(0)));
    assert_eq!(shown, report(BUSY, 1, 2, Record::EXECUTING, 0, number));
    assert_eq!(events, [start(number)]);
    let (shown, events) = step(kind, &mut record, &stopped(job(0, complete(0))));
    assert_eq!(shown, report(DONE, 1, 2, Record::DONE, 0, number));
    assert_eq!(events, [event(Event::DONE, 0, number)]);
    assert_eq!(record.reset_request, 1);
    record
}

/// C5 with these two jobs.
fn expect_c5(number: u64, next: u64) {
    let mut record = done_unseen(1, number);
    let (shown, events) = step(1, &mut record, &job(next, complete(0)));
    assert_eq!(shown, report(DONE, 1, 5, Record::DONE, 0, next));
    assert_eq!(events, [start(next), event(Event::DONE, 0, next)]);
    assert_eq!(record.reset_request, 0);
}

/// C6 with these two jobs.
fn expect_c6(number: u64, next: u64) {
    let mut record = done_unseen(5, number);
    let mut last = job(next, complete(0));
    last.inputs.abort = true;
    last.abort_reply = 1;
    let (shown, events) = step(5, &mut record, &last);
    assert_eq!(shown, report(ABORTED, 0, 6, Record::ABORTED, 0, next));
    assert_eq!(events, [start(next), event(Event::ABORTED, 0, next)]);
    assert_eq!(record.reset_request, 0);
}

#[test]
fn c5() {
    expect_c5(7, 9);
}

#[test]
fn c6() {
    expect_c6(7, 9);
}

/// Jobs that use all eight bytes, some equal in the low or in the high four.
const LONG_JOBS: [u64; 9] = [
    0,
    7,
    u32::MAX as u64,
    1 << 32,
    (1 << 32) + 7,
    (1 << 40) + 7,
    0x0807_0605_0403_0201,
    u64::MAX - 7,
    u64::MAX,
];

/// Document 02, 3/14: "The port community's appointment number has eight
/// bytes."
#[test]
fn long_jobs_one_after_the_other() {
    for number in LONG_JOBS {
        for next in LONG_JOBS {
            expect_c5(number, next);
            expect_c6(number, next);
        }
    }
}

/// A job failed, aborted or withdrawn in a later call has the number of its
/// start, though the frame has another one then.
#[test]
fn long_jobs_at_each_finish() {
    for number in LONG_JOBS {
        for other in LONG_JOBS {
            let mut record = first(1, &job(number, working(0))).0;
            let (shown, events) = step(1, &mut record, &job(other, piece(2, 5, 0)));
            assert_eq!(shown, report(ERROR, 1, 2, Record::ERROR, 5, number));
            assert_eq!(events, [event(Event::FAILED, 5, number)]);

            let mut record = first(5, &job(number, working(0))).0;
            let mut abort = job(other, complete(0));
            abort.inputs.abort = true;
            abort.abort_reply = 1;
            let (shown, events) = step(5, &mut record, &abort);
            assert_eq!(shown, report(ABORTED, 0, 3, Record::ABORTED, 0, number));
            assert_eq!(events, [event(Event::ABORTED, 0, number)]);

            let mut record = first(9, &job(number, working(0))).0;
            let mut withdrawn = stopped(job(other, working(0)));
            withdrawn.abort_reply = 1;
            withdrawn.reset_reply = 0;
            let (shown, events) = step(9, &mut record, &withdrawn);
            assert_eq!(shown, report(BUSY, 0, 3, Record::RESETTING, 0, number));
            assert_eq!(events, [event(Event::WITHDRAWN, 0, number)]);
        }
    }
}

fn time_out(limit: u32, clock: u32, piece: Piece) -> Entry {
    Entry {
        time_out: limit,
        clock,
        ..pieces(&[piece])
    }
}

#[test]
fn c7() {
    let (record, shown, events) = first(3, &time_out(100, 0, working(100)));
    assert_eq!(shown, report(BUSY, 1, 2, Record::EXECUTING, 0, 0));
    assert_eq!(events, [start(0)]);
    assert_eq!(record.elapsed, 100);
    assert_eq!(record.last_reading, 100);
    assert_eq!(record.time_out, 100);

    let (record, shown, events) = first(3, &time_out(100, 0, working(101)));
    assert_eq!(shown, report(ERROR, 1, 3, Record::ERROR, 1, 0));
    assert_eq!(events, [start(0), event(Event::FAILED, 1, 0)]);
    assert_eq!(record.elapsed, 101);
}

#[test]
fn c8() {
    let (_, shown, events) = first(3, &time_out(100, 0, complete(101)));
    assert_eq!(shown, report(ERROR, 1, 3, Record::ERROR, 1, 0));
    assert_eq!(events, [start(0), event(Event::FAILED, 1, 0)]);
}

#[test]
fn c9() {
    let (_, shown, events) = first(3, &time_out(100, 0, piece(2, 5, 101)));
    assert_eq!(shown, report(ERROR, 1, 3, Record::ERROR, 5, 0));
    assert_eq!(events, [start(0), event(Event::FAILED, 5, 0)]);
}

#[test]
fn c10() {
    let entry = Entry {
        time_limit: 50,
        ..pieces(&[working(50), working(51), working(52)])
    };
    let (record, shown, events) = first(2, &entry);
    assert_eq!(shown, report(BUSY, 2, 2, Record::EXECUTING, 0, 0));
    assert_eq!(events, [start(0)]);
    assert_eq!(record.elapsed, 51);
    assert_eq!(record.time_limit, 50);
}

#[test]
fn c11() {
    let clock = 4_294_967_290;
    let (record, shown, events) = first(3, &time_out(10, clock, working(4)));
    assert_eq!(shown, report(BUSY, 1, 2, Record::EXECUTING, 0, 0));
    assert_eq!(events, [start(0)]);
    assert_eq!(record.elapsed, 10);

    let (_, shown, events) = first(3, &time_out(10, clock, working(5)));
    assert_eq!(shown, report(ERROR, 1, 3, Record::ERROR, 1, 0));
    assert_eq!(events, [start(0), event(Event::FAILED, 1, 0)]);
}

#[test]
fn c12() {
    let (mut record, shown, events) = first(9, &job(3, working(0)));
    assert_eq!(shown, report(BUSY, 1, 2, Record::EXECUTING, 0, 3));
    assert_eq!(events, [start(3)]);
    let mut last = stopped(entry());
    last.abort_reply = 1;
    let (shown, events) = step(9, &mut record, &last);
    assert_eq!(shown, report(0, 0, 3, Record::DORMANT, 0, 0));
    assert_eq!(events, [event(Event::WITHDRAWN, 0, 3)]);
    assert_eq!(record, Record::fresh());
}

#[test]
fn level_done_leaves_the_request() {
    let (mut record, shown, _) = first(9, &job(1, complete(0)));
    assert_eq!(shown, report(DONE, 1, 3, Record::DONE, 0, 1));
    assert_eq!(record.reset_request, 0);
    let mut reset = stopped(entry());
    reset.reset_reply = 0;
    let (shown, _) = step(9, &mut record, &reset);
    assert_eq!(shown, report(DONE, 0, 2, Record::RESETTING, 0, 1));
    // The reset ends without a request, so a new start waits for the next call.
    let (shown, events) = step(9, &mut record, &job(2, complete(0)));
    assert_eq!(shown, report(0, 0, 1, Record::DORMANT, 0, 0));
    assert_eq!(events, []);
}

#[test]
fn abort_error_of_a_level_block() {
    let (mut record, _, _) = first(13, &job(4, complete(0)));
    assert_eq!(record.step, Record::EXECUTING);
    let waiting = stopped(entry());
    let (shown, events) = step(13, &mut record, &waiting);
    assert_eq!(shown, report(BUSY, 0, 2, Record::ABORTING, 0, 4));
    assert_eq!(events, []);
    let failing = Entry {
        abort_reply: 2,
        abort_code: 6,
        ..waiting
    };
    let (shown, events) = step(13, &mut record, &failing);
    assert_eq!(shown, report(ERROR, 0, 2, Record::ERROR, 6, 4));
    assert_eq!(events, [event(Event::FAILED, 6, 4)]);
    assert_eq!(record.reset_request, 1);
    // With the request the reset goes on to a new start in the same call.
    let (shown, events) = step(13, &mut record, &job(5, complete(0)));
    assert_eq!(shown, report(BUSY, 1, 4, Record::EXECUTING, 0, 5));
    assert_eq!(events, [start(5)]);
}

#[test]
fn abort_bit_only_on_kinds_5_to_8() {
    for kind in 1..=14 {
        let mut record = first(kind, &job(1, working(0))).0;
        let mut abort = entry();
        abort.inputs.abort = true;
        let (shown, _) = step(kind, &mut record, &abort);
        if (5..=8).contains(&kind) {
            assert_eq!(shown, report(BUSY, 0, 2, Record::ABORTING, 0, 1));
        } else {
            assert_eq!(shown, report(BUSY, 1, 1, Record::EXECUTING, 0, 1));
        }
    }
}

#[test]
fn pieces_of_each_kind() {
    let four = pieces(&[working(1), working(2), complete(3), working(4)]);
    for kind in 1..=14 {
        let (record, shown, _) = first(kind, &four);
        if kind % 2 == 1 {
            assert_eq!(shown, report(BUSY, 1, 2, Record::EXECUTING, 0, 0));
        } else if kind == 14 {
            assert_eq!(shown, report(BUSY, 3, 2, Record::EXECUTING, 0, 0));
        } else {
            assert_eq!(shown, report(DONE, 3, 3, Record::DONE, 0, 0));
        }
        assert_eq!(record.elapsed, u64::from(shown.pieces));
    }
    let none = pieces(&[]);
    for kind in 1..=14 {
        let (_, shown, _) = first(kind, &none);
        assert_eq!(shown, report(BUSY, 0, 2, Record::EXECUTING, 0, 0));
    }
}

#[test]
fn limits_taken_at_the_start_or_read_each_call() {
    let limits = Entry {
        time_limit: 10,
        time_out: 20,
        ..entry()
    };
    let longer = Entry {
        time_limit: 100,
        time_out: 200,
        ..pieces(&[working(11), working(12), working(21), working(22)])
    };
    for kind in 1..=14 {
        let mut record = first(kind, &limits).0;
        let limit = [2, 4, 6, 8].contains(&kind);
        let out = [3, 4, 7, 8].contains(&kind);
        assert_eq!(record.time_limit, if limit { 10 } else { 0 });
        assert_eq!(record.time_out, if out { 20 } else { 0 });
        let used = step(kind, &mut record, &longer).0.pieces;
        let all = kind >= 9 && kind % 2 == 0;
        assert_eq!(used, if all { 4 } else { 1 });
    }
}

#[test]
fn time_out_at_the_call_clock() {
    let mut record = first(11, &entry()).0;
    let late = Entry {
        time_out: 9,
        clock: 10,
        ..pieces(&[])
    };
    let (shown, events) = step(11, &mut record, &late);
    assert_eq!(shown, report(ERROR, 0, 2, Record::ERROR, 1, 0));
    assert_eq!(events, [event(Event::FAILED, 1, 0)]);

    // With pieces the first is used, and an error reply goes before code 1.
    let mut record = first(12, &entry()).0;
    let late = Entry {
        time_out: 9,
        clock: 10,
        ..pieces(&[piece(2, 8, 10), working(11)])
    };
    let (shown, _) = step(12, &mut record, &late);
    assert_eq!(shown, report(ERROR, 1, 2, Record::ERROR, 8, 0));
}

#[test]
fn past_the_time_out_ends_the_pieces() {
    let entry = Entry {
        time_out: 5,
        ..pieces(&[working(5), working(6), complete(7)])
    };
    for kind in [4, 8, 12] {
        let (_, shown, _) = first(kind, &entry);
        assert_eq!(shown, report(ERROR, 2, 3, Record::ERROR, 1, 0));
    }
}

/// The kinds with a time limit, and those with a time-out.
const TI_KINDS: [u8; 7] = [2, 4, 6, 8, 10, 12, 14];
const TO_KINDS: [u8; 6] = [3, 4, 7, 8, 11, 12];

/// The last difference that counts.
const GREATEST: u32 = 2_147_483_647;

/// Clocks on both sides of the counter's turn and of its middle.
const CLOCKS: [u32; 6] = [
    0,
    1000,
    2_147_483_647,
    2_147_483_648,
    4_294_967_290,
    u32::MAX,
];

fn calls(clock: u32) -> Entry {
    Entry {
        clock,
        ..pieces(&[])
    }
}

/// Calls without a piece at these clocks; elapsed and last reading after each.
fn times(kind: u8, time_out: u32, clocks: &[u32]) -> (Record, Vec<(u64, u32)>) {
    let mut record = Record::fresh();
    let mut times = vec![];
    for &clock in clocks {
        let entry = Entry {
            time_out,
            ..calls(clock)
        };
        step(kind, &mut record, &entry);
        times.push((record.elapsed, record.last_reading));
    }
    (record, times)
}

#[test]
fn differences_that_count() {
    assert_eq!(OUT_OF_STEP, 2_147_483_648);
    for clock in CLOCKS {
        for time in [0, 1, 10, GREATEST - 1, GREATEST] {
            assert_eq!(time_between(clock, clock.wrapping_add(time)), Some(time));
        }
        for time in [OUT_OF_STEP, OUT_OF_STEP + 1, u32::MAX - 10, u32::MAX] {
            assert_eq!(time_between(clock, clock.wrapping_add(time)), None);
        }
    }
    assert_eq!(time_between(4_294_967_290, 4), Some(10));
    assert_eq!(time_between(4, 4_294_967_290), None);
}

/// A first piece so far after the call clock, then one a microsecond after it;
/// pieces used, and what the call leaves.
fn two_pieces(kind: u8, limit: u32, clock: u32, time: u32) -> (u8, Record) {
    let entry = Entry {
        time_limit: limit,
        clock,
        ..pieces(&[
            working(clock.wrapping_add(time)),
            working(clock.wrapping_add(1)),
        ])
    };
    let (record, shown, _) = first(kind, &entry);
    (shown.pieces, record)
}

#[test]
fn limit_at_the_last_difference_that_counts() {
    for kind in TI_KINDS {
        for clock in CLOCKS {
            // 2,147,483,647 counts: past every smaller limit.
            for limit in [1, 50, GREATEST - 1] {
                let (used, record) = two_pieces(kind, limit, clock, GREATEST);
                assert_eq!(used, 1);
                assert_eq!(record.elapsed, u64::from(GREATEST));
                assert_eq!(record.last_reading, clock.wrapping_add(GREATEST));
            }
            // Past none of these, so the second piece is used too; it is out of
            // step with the first.
            for limit in [0, GREATEST, OUT_OF_STEP, u32::MAX] {
                let (used, record) = two_pieces(kind, limit, clock, GREATEST);
                assert_eq!(used, 2);
                assert_eq!(record.elapsed, u64::from(GREATEST));
                assert_eq!(record.last_reading, clock.wrapping_add(GREATEST));
            }
        }
    }
}

#[test]
fn limit_with_a_piece_out_of_step() {
    for kind in TI_KINDS {
        for clock in CLOCKS {
            for time in [OUT_OF_STEP, OUT_OF_STEP + 1, u32::MAX - 2, u32::MAX] {
                for limit in [0, 1, 50, GREATEST, OUT_OF_STEP, u32::MAX] {
                    let (used, record) = two_pieces(kind, limit, clock, time);
                    assert_eq!(used, 2);
                    assert_eq!(record.elapsed, 1);
                    assert_eq!(record.last_reading, clock.wrapping_add(1));
                }
            }
        }
    }
}

/// The limit is from the call clock, even one that is out of step: last reading
/// 100, call clock 90, limit 50.
#[test]
fn limit_from_a_call_clock_out_of_step() {
    for kind in TI_KINDS {
        let limited = Entry {
            time_limit: 50,
            ..calls(100)
        };
        let mut record = first(kind, &limited).0;
        let early = Entry {
            time_limit: 50,
            clock: 90,
            ..pieces(&[working(140), working(141), working(142)])
        };
        let (shown, _) = step(kind, &mut record, &early);
        assert_eq!(shown, report(BUSY, 2, 1, Record::EXECUTING, 0, 0));
        assert_eq!((record.elapsed, record.last_reading), (41, 141));
    }
}

#[test]
fn time_out_at_the_last_difference_that_counts() {
    for kind in TO_KINDS {
        for clock in CLOCKS {
            let end = clock.wrapping_add(GREATEST);
            let (record, shown, _) = first(kind, &time_out(GREATEST - 1, clock, working(end)));
            assert_eq!(shown, report(ERROR, 1, 3, Record::ERROR, 1, 0));
            assert_eq!(record.elapsed, u64::from(GREATEST));
            let (record, shown, _) = first(kind, &time_out(GREATEST, clock, working(end)));
            assert_eq!(shown, report(BUSY, 1, 2, Record::EXECUTING, 0, 0));
            assert_eq!(record.elapsed, u64::from(GREATEST));
            assert_eq!(record.last_reading, end);
        }
    }
}

#[test]
fn time_out_with_a_piece_out_of_step() {
    for kind in TO_KINDS {
        for clock in CLOCKS {
            for time in [OUT_OF_STEP, OUT_OF_STEP + 1, u32::MAX - 2, u32::MAX] {
                let end = clock.wrapping_add(time);
                let (record, shown, _) = first(kind, &time_out(1, clock, working(end)));
                assert_eq!(shown, report(BUSY, 1, 2, Record::EXECUTING, 0, 0));
                assert_eq!((record.elapsed, record.last_reading), (0, clock));
                // Its reply is judged as ever.
                let (_, shown, _) = first(kind, &time_out(1, clock, complete(end)));
                assert_eq!(shown, report(DONE, 1, 3, Record::DONE, 0, 0));
                let (_, shown, _) = first(kind, &time_out(1, clock, piece(2, 5, end)));
                assert_eq!(shown, report(ERROR, 1, 3, Record::ERROR, 5, 0));
            }
        }
    }
}

/// "A gap of that length between calls is now taken as none".
#[test]
fn call_clocks_around_the_last_difference_that_counts() {
    for kind in TO_KINDS {
        for clock in CLOCKS {
            let at = |time: u32| clock.wrapping_add(time);
            let (record, seen) = times(kind, GREATEST - 1, &[clock, at(GREATEST)]);
            assert_eq!(seen[1], (u64::from(GREATEST), at(GREATEST)));
            assert_eq!((record.step, record.code), (Record::ERROR, 1));
            let (record, seen) = times(kind, 1, &[clock, at(OUT_OF_STEP), at(1)]);
            assert_eq!(seen[1..], [(0, clock), (1, at(1))]);
            assert_eq!(record.step, Record::EXECUTING);
        }
    }
}

/// "the last reading then stays": a piece 10 before the call clock, and the
/// next call 5 after it.
#[test]
fn last_reading_stays() {
    for kind in 1..=14 {
        let (mut record, shown, _) = first(kind, &time_out(100, 100, working(90)));
        assert_eq!(shown, report(BUSY, 1, 2, Record::EXECUTING, 0, 0));
        assert_eq!((record.elapsed, record.last_reading), (0, 100));
        let next = Entry {
            time_out: 100,
            ..calls(105)
        };
        step(kind, &mut record, &next);
        assert_eq!((record.elapsed, record.last_reading), (5, 105));
    }
}

/// A reading that comes back is counted from the one that stayed.
#[test]
fn readings_after_a_gap_that_counts_as_none() {
    let clocks = [0, 2_147_483_648, 2_147_483_848, 50, 101];
    let expected = [(0, 0), (0, 0), (0, 0), (50, 50), (101, 101)];
    for kind in 1..=14 {
        let (record, seen) = times(kind, 0, &clocks);
        assert_eq!(seen, expected);
        assert_eq!(record.step, Record::EXECUTING);
    }
    for kind in TO_KINDS {
        let (record, seen) = times(kind, 100, &clocks);
        assert_eq!(seen, expected);
        assert_eq!((record.step, record.code), (Record::ERROR, 1));
        assert_eq!(times(kind, 101, &clocks).0.step, Record::EXECUTING);
    }
}

/// In step across the counter's turn, and out of step back across it.
#[test]
fn out_of_step_across_the_turn() {
    for kind in 1..=14 {
        let clocks = [4_294_967_290, 4, 4_294_967_295, 3, 6];
        let expected = [(0, 4_294_967_290), (10, 4), (10, 4), (10, 4), (12, 6)];
        assert_eq!(times(kind, 12, &clocks).1, expected);
    }
    for kind in TI_KINDS {
        let entry = Entry {
            time_limit: 10,
            clock: 4_294_967_290,
            ..pieces(&[working(4_294_967_289), working(4), working(5), working(6)])
        };
        let (record, shown, _) = first(kind, &entry);
        assert_eq!(shown, report(BUSY, 3, 2, Record::EXECUTING, 0, 0));
        assert_eq!((record.elapsed, record.last_reading), (11, 5));
    }
}

/// "Last reading = call clock, elapsed 0": a start has no
/// reading to be out of step with.
#[test]
fn a_start_takes_its_call_clock() {
    let mut record = first(3, &time_out(100, 1000, working(1050))).0;
    assert_eq!((record.elapsed, record.last_reading), (50, 1050));
    step(
        3,
        &mut record,
        &stopped(time_out(100, 1050, complete(1050))),
    );
    assert_eq!((record.step, record.reset_request), (Record::DONE, 1));
    let (shown, events) = step(3, &mut record, &time_out(100, 990, working(995)));
    assert_eq!(shown, report(BUSY, 1, 4, Record::EXECUTING, 0, 0));
    assert_eq!(events, [start(0)]);
    assert_eq!((record.elapsed, record.last_reading), (5, 995));
}

#[test]
fn elapsed_is_held() {
    for kind in 1..=14 {
        // Twice the last difference that counts, and 1, 1, 1 and 7 after that.
        let clocks = [0, GREATEST, 4_294_967_294, u32::MAX, 0, 1, 8];
        let (record, seen) = times(kind, 0, &clocks);
        let held = 4_294_967_296;
        let elapsed = [
            0,
            2_147_483_647,
            4_294_967_294,
            4_294_967_295,
            held,
            held,
            held,
        ];
        assert!(seen.iter().copied().eq(elapsed.into_iter().zip(clocks)));
        assert_eq!(record.step, Record::EXECUTING);
    }
}

#[test]
fn greatest_time_out() {
    let clocks = [0, GREATEST, 4_294_967_294, u32::MAX, 0];
    for kind in TO_KINDS {
        let (record, seen) = times(kind, u32::MAX, &clocks[..4]);
        assert_eq!(seen[3], (4_294_967_295, u32::MAX));
        assert_eq!(record.step, Record::EXECUTING);
        let (record, seen) = times(kind, u32::MAX, &clocks);
        assert_eq!(seen[4], (4_294_967_296, 0));
        assert_eq!((record.step, record.code), (Record::ERROR, 1));
    }
}

/// Each reading a microsecond before the one before: no time at all.
#[test]
fn running_back_counts_as_none() {
    for kind in 1..=14 {
        let seen = times(kind, 1, &[3, 2, 1, 0, u32::MAX]).1;
        assert_eq!(seen, [(0, 3); 5]);
    }
}

/// The record with one byte changed.
fn with(bytes: &[u8; Record::SIZE], at: usize, value: u8) -> [u8; Record::SIZE] {
    let mut other = *bytes;
    other[at] = value;
    other
}

/// Executing, busy only.
fn executing() -> [u8; Record::SIZE] {
    let mut record = Record::fresh();
    record.step = Record::EXECUTING;
    record.flags = BUSY;
    record.encode()
}

#[test]
fn dormant_is_all_zero() {
    let zero = [0; Record::SIZE];
    for kind in 1..=14 {
        assert!(Record::is_sound(&zero, kind));
        for at in 0..Record::SIZE {
            for value in [1, 0x80, 0xff] {
                assert!(!Record::is_sound(&with(&zero, at, value), kind), "{at}");
            }
        }
    }
}

#[test]
fn sound_bytes() {
    let good = executing();
    assert!(Record::is_sound(&good, 1));
    let zero = [
        record_at::RESET_REQUEST,
        record_at::CODE,
        record_at::CODE + 1,
        record_at::TIME_LIMIT,
        record_at::TIME_OUT,
        record_at::ELAPSED + 5,
        record_at::ELAPSED + 7,
    ];
    for at in zero.into_iter().chain(record_at::UNNAMED) {
        assert!(!Record::is_sound(&with(&good, at, 1), 1), "{at}");
    }
    // Job and reading are free, and elapsed up to its greatest value.
    let job = record_at::JOB..record_at::JOB + size_of::<u64>();
    let reading = record_at::LAST_READING..record_at::LAST_READING + size_of::<u32>();
    let elapsed = record_at::ELAPSED..=record_at::ELAPSED + 4;
    for at in job.chain(reading).chain(elapsed) {
        assert!(Record::is_sound(&with(&good, at, 1), 1), "{at}");
    }
    let held = with(&good, record_at::ELAPSED + 4, 1);
    assert!(!Record::is_sound(&with(&held, record_at::ELAPSED, 1), 1));
}

/// "unnamed bytes and bits zero": any value in any of them, on every kind, in a
/// record that is sound but for it.
#[test]
fn unnamed_bytes_of_a_record() {
    let mut failed = Record::fresh();
    failed.step = Record::ERROR;
    failed.flags = ERROR;
    failed.code = 2;
    failed.job = u64::MAX;
    for good in [executing(), failed.encode()] {
        for kind in 1..=14 {
            assert!(Record::is_sound(&good, kind));
            for at in record_at::UNNAMED {
                for value in 1..=255 {
                    assert!(!Record::is_sound(&with(&good, at, value), kind), "{at}");
                }
            }
        }
    }
}

/// Every step and every flags byte on every kind, written out as sets of kinds.
#[test]
fn sound_steps_and_flags() {
    let kinds = |step: u8, flags: u8| -> Vec<u8> {
        match (step, flags) {
            (0, 0) | (1, 1) | (3, 4) | (6, 4) => (1..=14).collect(),
            (2, 2) | (6, 2) => (1..=12).collect(),
            (4, 1) => (5..=14).collect(),
            (5, 8) | (6, 8) => (5..=8).collect(),
            (6, 1) => (9..=14).collect(),
            _ => vec![],
        }
    };
    for step in 0..=255 {
        for flags in 0..=255 {
            for kind in 1..=14 {
                let mut bytes = [0; Record::SIZE];
                bytes[record_at::STEP] = step;
                bytes[record_at::FLAGS] = flags;
                bytes[record_at::CODE] = if flags & ERROR != 0 { 2 } else { 0 };
                let sound = kinds(step, flags).contains(&kind);
                assert_eq!(Record::is_sound(&bytes, kind), sound);
            }
        }
    }
}

#[test]
fn sound_codes_and_requests() {
    for kind in 1..=14 {
        let mut failed = Record::fresh();
        failed.step = Record::ERROR;
        failed.flags = ERROR;
        assert!(!Record::is_sound(&failed.encode(), kind));
        failed.code = 1;
        let out = [3, 4, 7, 8, 11, 12].contains(&kind);
        assert_eq!(Record::is_sound(&failed.encode(), kind), out);
        failed.code = 65_535;
        failed.reset_request = 1;
        assert!(Record::is_sound(&failed.encode(), kind));
        failed.reset_request = 2;
        assert!(!Record::is_sound(&failed.encode(), kind));
        let mut done = Record::fresh();
        done.step = Record::DONE;
        done.flags = DONE;
        done.reset_request = 1;
        assert_eq!(Record::is_sound(&done.encode(), kind), kind <= 8);
    }
}

#[test]
fn formed_entries() {
    let good = pieces(&[working(1), piece(2, 2, 0)]).encode();
    assert!(Entry::is_formed(&good));
    let [first, second, past] = [0, 1, 2].map(entry_at::piece);
    let bad = [
        (entry_at::INPUTS, 4),
        (entry_at::INPUTS, 0x80),
        (entry_at::PIECE_COUNT, 1),
        (entry_at::PIECE_COUNT, 5),
        (entry_at::PIECE_COUNT, 255),
        (entry_at::ABORT_REPLY, 2),
        (entry_at::ABORT_REPLY, 3),
        (entry_at::RESET_REPLY, 2),
        (entry_at::ABORT_CODE, 2),
        (first + piece_at::REPLY, 3),
        (first + piece_at::UNNAMED, 1),
        (first + piece_at::CODE, 2),
        (second + piece_at::CODE, 1),
        (second + piece_at::CODE, 0),
        (past, 1),
        (entry_at::piece(MAX_PIECES) - 1, 1),
    ];
    let unnamed = entry_at::UNNAMED.map(|at| (at, 1));
    for (at, value) in bad.into_iter().chain(unnamed) {
        let mut bytes = good;
        bytes[at] = value;
        assert!(!Entry::is_formed(&bytes), "{at} {value}");
    }
    let fine = [
        (entry_at::INPUTS, 3),
        (entry_at::PIECE_COUNT, 3),
        (entry_at::PIECE_COUNT, 4),
        (entry_at::ABORT_REPLY, 1),
        (entry_at::RESET_REPLY, 0),
        (second - 1, 9),
    ];
    let job = (0..size_of::<u64>()).map(|byte| (entry_at::JOB + byte, 9));
    for (at, value) in fine.into_iter().chain(job) {
        let mut bytes = good;
        bytes[at] = value;
        assert!(Entry::is_formed(&bytes), "{at} {value}");
    }
}

/// Any value in an unnamed byte of an entry that is formed but for it.
#[test]
fn unnamed_bytes_of_an_entry() {
    for good in [Entry::encode(&entry()), job(u64::MAX, complete(9)).encode()] {
        assert!(Entry::is_formed(&good));
        for at in entry_at::UNNAMED {
            for value in 1..=255 {
                let mut bytes = good;
                bytes[at] = value;
                assert!(!Entry::is_formed(&bytes), "{at} {value}");
            }
        }
    }
}

/// A call ends on any record at all, sound or not.
#[test]
fn every_call_ends() {
    let mut failing = entry();
    failing.abort_reply = 2;
    failing.abort_code = 2;
    let mut complete_all = job(1, complete(5));
    complete_all.abort_reply = 1;
    complete_all.piece_count = 255;
    for step in 0..=255 {
        for flags in 0..=15 {
            for request in 0..=2 {
                for kind in 0..=15 {
                    for bits in 0..4 {
                        for entry in [&failing, &complete_all] {
                            let mut record = Record {
                                step,
                                flags,
                                reset_request: request,
                                elapsed: u64::MAX,
                                ..Record::fresh()
                            };
                            let inputs = Inputs {
                                start: bits & 1 != 0,
                                abort: bits & 2 != 0,
                            };
                            let (report, _) = call(kind, 1, inputs, entry, &mut record);
                            assert!((1..=9).contains(&report.passes));
                        }
                    }
                }
            }
        }
    }
}
