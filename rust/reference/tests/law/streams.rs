//! Reasons 3 to 9, marks, primaries and notifications.

use crate::support::*;
use reference::bytes::*;

fn unset(stream: u8, role: u8) -> Vec<u8> {
    arbitrate(stream, Head::unset(DEVICE, role))
}

fn set(stream: u8, role: u8, id: u128) -> Vec<u8> {
    arbitrate(stream, Head::set(DEVICE, role, id))
}

/// A fresh agent with streams `0..count` open.
fn opened(count: u8) -> Bench {
    let mut bench = Bench::fresh();
    for stream in 0..count {
        bench.ok(&open(stream));
    }
    bench
}

#[test]
fn open_and_close() {
    let mut bench = Bench::fresh();
    bench.refused(&close(4), 4, 5);
    bench.refused(&set(4, 0, 5), 4, 5);
    bench.ok(&open(4));
    bench.refused(&open(4), 3, 9);
    bench.ok(&close(4));
    bench.refused(&close(4), 4, 5);
    bench.ok(&open(4));
    // A bound stream is open as well, and stays so when OPEN is refused.
    bench.told(4, 0, 5, &[(4, 0)], Some(5));
    bench.refused(&open(4), 3, 9);
    bench.told(4, 0, 5, &[(4, 0)], Some(5));
}

#[test]
fn not_open_comes_before_device_and_role() {
    let mut bench = Bench::fresh();
    bench.refused(&arbitrate(4, Head::set(9, 9, 5)), 4, 5);
}

#[test]
fn unbound_streams_get_5_and_6_and_are_closed() {
    let mut bench = opened(1);
    bench.refused(&arbitrate(0, Head::set(2, 0, 9)), 5, 5);
    bench.refused(&close(0), 4, 5);
    bench.ok(&open(0));
    bench.refused(&set(0, 8, 9), 6, 5);
    bench.refused(&close(0), 4, 5);
    bench.ok(&open(0));
    bench.refused(&arbitrate(0, Head::set(2, 8, 9)), 5, 5);
    // None of the refused ids raised a mark.
    bench.ok(&open(0));
    bench.tells(&unset(0, 0), (0, 0), 0, &[(0, 5)], None);
}

#[test]
fn bound_streams_get_7_for_device_and_role_alike() {
    let elsewhere = [
        Head::set(2, 0, 5), // another device
        Head::set(DEVICE, 1, 5),
        Head::set(DEVICE, 8, 5), // no such role, still 7
        Head::set(2, 200, 5),
    ];
    for head in elsewhere {
        let mut bench = opened(2);
        bench.told(0, 0, 5, &[(0, 0)], Some(5));
        bench.told(1, 0, 3, &[(1, 6)], Some(5));
        // The backup goes unnoticed.
        bench.refused(&arbitrate(1, head), 7, 9);
        bench.refused(&close(1), 4, 5);
        bench.ok(&open(1));
        bench.told(1, 0, 3, &[(1, 6)], Some(5));
        // The primary's closing is told in the role it was bound to.
        bench.tells(&arbitrate(0, head), (7, 9), 0, &[(1, 5)], Some(5));
        bench.refused(&close(0), 4, 5);
        // The other role has heard no id.
        bench.ok(&open(0));
        bench.tells(&unset(0, 1), (0, 0), 1, &[(0, 5)], None);
    }
}

#[test]
fn seven_comes_before_8() {
    let mut bench = opened(2);
    bench.told(0, 0, 5, &[(0, 0)], Some(5));
    bench.told(1, 1, 6, &[(1, 0)], Some(6));
    // Stream 1 names role 0 with an id held there.
    bench.refused(&set(1, 0, 5), 7, 9);
}

#[test]
fn an_id_held_by_another_stream_is_8() {
    let mut bench = opened(3);
    bench.told(0, 0, 5, &[(0, 0)], Some(5));
    bench.told(1, 0, 3, &[(1, 6)], Some(5));
    // Unbound, with the primary's id or a backup's.
    bench.refused(&set(2, 0, 5), 8, 3);
    bench.ok(&open(2));
    bench.refused(&set(2, 0, 3), 8, 3);
    // Held in another role is no clash.
    bench.ok(&open(2));
    bench.told(2, 1, 5, &[(2, 0)], Some(5));
    // Bound: the primary lowers onto the backup's id and is closed, which the
    // backup hears.
    bench.tells(&set(0, 0, 3), (8, 3), 0, &[(1, 5)], Some(5));
    bench.refused(&close(0), 4, 5);
}

#[test]
fn a_bound_backup_under_8_closes_unheard() {
    let mut bench = opened(2);
    bench.told(0, 0, 5, &[(0, 0)], Some(5));
    bench.told(1, 0, 3, &[(1, 6)], Some(5));
    bench.refused(&set(1, 0, 5), 8, 3);
    bench.refused(&close(1), 4, 5);
}

#[test]
fn the_own_id_is_no_clash_and_neither_are_unset_ids() {
    let mut bench = opened(2);
    bench.told(0, 0, 5, &[(0, 0)], Some(5));
    bench.told(0, 0, 5, &[(0, 0)], Some(5));
    bench.told(1, 0, 3, &[(1, 6)], Some(5));
    bench.told(1, 0, 3, &[(1, 6)], Some(5));
    bench.tells(&unset(1, 0), (0, 0), 0, &[(1, 6)], Some(5));
    bench.tells(&unset(0, 0), (0, 0), 0, &[(0, 5), (1, 5)], Some(5));
}

#[test]
fn an_id_left_behind_is_free() {
    let mut bench = opened(2);
    bench.told(0, 0, 5, &[(0, 0)], Some(5));
    bench.told(0, 0, 6, &[(0, 0)], Some(6));
    bench.told(1, 0, 5, &[(1, 6)], Some(6));
    bench.ok(&close(1));
    bench.ok(&open(1));
    bench.told(1, 0, 5, &[(1, 6)], Some(6));
}

#[test]
fn a_ninth_stream_is_9() {
    let mut bench = opened(10);
    for stream in 0..8 {
        // Unset ids count.
        bench.tells(&unset(stream, 3), (0, 0), 3, &[(stream, 5)], None);
    }
    bench.refused(&unset(8, 3), 9, 8);
    bench.refused(&close(8), 4, 5);
    // A refused id does not raise the mark.
    bench.refused(&set(9, 3, 100), 9, 8);
    bench.tells(&unset(0, 3), (0, 0), 3, &[(0, 5)], None);
    // A bound stream never gets 9.
    let everyone: Vec<(u8, u8)> = (0..8).map(|s| (s, if s == 7 { 0 } else { 6 })).collect();
    bench.told(7, 3, 2, &everyone, Some(2));
    // 8 comes before 9.
    bench.ok(&open(8));
    bench.refused(&set(8, 3, 2), 8, 3);
    // Another role has places, and so has this one once a stream closes.
    bench.ok(&open(8));
    bench.told(8, 4, 2, &[(8, 0)], Some(2));
    bench.ok(&close(0));
    bench.ok(&open(9));
    bench.tells(&unset(9, 3), (0, 0), 3, &[(9, 6)], Some(2));
}

#[test]
fn five_and_six_come_before_8_and_9() {
    let mut bench = opened(9);
    for stream in 0..8 {
        bench.call(&set(stream, 0, 1 + u128::from(stream)));
    }
    bench.refused(&arbitrate(8, Head::set(2, 0, 8)), 5, 5);
}

#[test]
fn a_raised_mark_tells_everyone() {
    let mut bench = opened(3);
    bench.told(0, 0, 5, &[(0, 0)], Some(5));
    bench.told(1, 0, 3, &[(1, 6)], Some(5));
    // The primary stays the same, the mark rises.
    bench.told(0, 0, 6, &[(0, 0), (1, 6)], Some(6));
    // Stream 2 is open and unbound: it is told nothing.
    bench.told(1, 0, 9, &[(0, 6), (1, 0)], Some(9));
}

#[test]
fn a_repeated_id_tells_the_sender_alone() {
    let mut bench = opened(2);
    bench.told(0, 0, 5, &[(0, 0)], Some(5));
    bench.told(1, 0, 3, &[(1, 6)], Some(5));
    bench.told(0, 0, 5, &[(0, 0)], Some(5));
    bench.told(1, 0, 3, &[(1, 6)], Some(5));
    bench.told(1, 0, 4, &[(1, 6)], Some(5));
}

#[test]
fn a_mark_reached_again_makes_a_primary_and_tells_everyone() {
    let mut bench = opened(2);
    bench.told(0, 0, 5, &[(0, 0)], Some(5));
    bench.told(1, 0, 3, &[(1, 6)], Some(5));
    bench.told(0, 0, 4, &[(0, 5), (1, 5)], Some(5));
    bench.told(1, 0, 5, &[(0, 6), (1, 0)], Some(5));
    // The old primary cannot have it back.
    bench.refused(&set(0, 0, 5), 8, 3);
}

#[test]
fn a_closing_backup_tells_nobody() {
    let mut bench = opened(3);
    bench.told(0, 0, 5, &[(0, 0)], Some(5));
    bench.told(1, 0, 3, &[(1, 6)], Some(5));
    bench.tells(&unset(2, 0), (0, 0), 0, &[(2, 6)], Some(5));
    bench.ok(&close(1));
    bench.ok(&close(2));
    // A primary that closes alone has nobody left to tell.
    bench.ok(&close(0));
}

#[test]
fn streams_without_a_primary_close_unheard() {
    let mut bench = opened(2);
    bench.told(0, 0, 5, &[(0, 0)], Some(5));
    bench.told(1, 0, 3, &[(1, 6)], Some(5));
    bench.told(0, 0, 4, &[(0, 5), (1, 5)], Some(5));
    // Stream 0 was primary once, but is not when it closes.
    bench.ok(&close(0));
}

#[test]
fn a_reopened_stream_is_unbound() {
    let mut bench = opened(2);
    bench.told(0, 0, 5, &[(0, 0)], Some(5));
    bench.ok(&close(0));
    bench.ok(&open(0));
    // It holds no id, so another may take the mark; nor is it told.
    bench.told(1, 0, 5, &[(1, 0)], Some(5));
    // It may go to another role.
    bench.told(0, 1, 5, &[(0, 0)], Some(5));
}

#[test]
fn roles_have_marks_of_their_own() {
    let mut bench = opened(2);
    bench.told(0, 0, 5, &[(0, 0)], Some(5));
    bench.told(1, 7, 2, &[(1, 0)], Some(2));
    bench.told(0, 0, 6, &[(0, 0)], Some(6));
    bench.ok(&close(0));
    bench.told(1, 7, 2, &[(1, 0)], Some(2));
}

#[test]
fn the_mark_stays_when_all_are_gone() {
    let mut bench = opened(1);
    bench.told(0, 0, 5, &[(0, 0)], Some(5));
    bench.ok(&close(0));
    bench.ok(&open(0));
    bench.tells(&unset(0, 0), (0, 0), 0, &[(0, 5)], Some(5));
    bench.told(0, 0, 4, &[(0, 5)], Some(5));
    bench.told(0, 0, 5, &[(0, 0)], Some(5));
}

#[test]
fn the_highest_id_is_a_mark_like_any_other() {
    let mut bench = opened(2);
    bench.told(0, 0, u128::MAX, &[(0, 0)], Some(u128::MAX));
    bench.told(1, 0, 1 << 127, &[(1, 6)], Some(u128::MAX));
}
