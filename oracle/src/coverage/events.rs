//! What happened in a poll, in words.

use super::poll::Poll;
use crate::records::{state::*, Notice, Sent, Telegram};
use crate::ring::Next;

/// All that has to happen in some poll.
pub const EVENTS: [&str; 71] = [
    "ListenToken: first collision",
    "ListenToken: second collision, last telegram",
    "ListenToken: second collision, a telegram more",
    "ListenToken: second collision after another's telegram",
    "Offline: two collisions in the poll that starts listening",
    "Offline: claims in the poll that starts listening",
    "ActiveIdle: first collision",
    "ActiveIdle: second collision",
    "ActiveIdle: collisions counted anew after another's token",
    "CheckTokenPass: second collision",
    "ActiveIdle: token of the previous station accepted",
    "ActiveIdle: token of the remembered station accepted",
    "ActiveIdle: token of 126 or 127 accepted",
    "ActiveIdle: stranger remembered",
    "ActiveIdle: another stranger remembered",
    "ActiveIdle: token to us is not the last telegram",
    "CheckTokenPass: token accepted",
    "ListenToken: request noted",
    "ListenToken: request that is not last is not noted",
    "ActiveIdle: request noted",
    "ActiveIdle: request of our own address noted",
    "ActiveIdle: request that is not last is not noted",
    "CheckTokenPass: request noted",
    "ListenToken: answers not ready, stays",
    "ListenToken: answers without token",
    "ListenToken: answers not ready, goes to ActiveIdle",
    "telegrams are gone while a request waits for its pause",
    "claims, not ready before",
    "claims, ready before",
    "UseToken: an application sends at normal priority",
    "UseToken: an application sends at high priority",
    "UseToken: one declines, a later one sends",
    "UseToken: all decline at normal priority",
    "UseToken: all decline at high priority",
    "UseToken: hold time over, a cycle done",
    "UseToken: end of hold at the token time that it is counted from",
    "UseToken: gap time taken off the hold time",
    "UseToken: a decline completes the cycle before all are asked",
    "AwaitDataResponse: reply by a response",
    "AwaitDataResponse: reply by a short confirmation",
    "AwaitDataResponse: response of another station",
    "AwaitDataResponse: response to another station",
    "AwaitDataResponse: token or request",
    "AwaitDataResponse: timeout, nothing sent",
    "AwaitDataResponse: timeout, another application sends",
    "AwaitDataResponse: timeout, the same application sends",
    "AwaitDataResponse: timeout, hold time over",
    "PassToken: gap question",
    "PassToken: gap question to 0",
    "PassToken: waiting is counted",
    "PassToken: waiting is over",
    "PassToken: the walk ends",
    "PassToken: alone",
    "PassToken: to another",
    "CheckTokenPass: second attempt",
    "CheckTokenPass: third attempt",
    "CheckTokenPass: taken out, next neighbour",
    "CheckTokenPass: taken out, alone",
    "CheckTokenPass: next station heard first",
    "CheckTokenPass: another station heard first",
    "CheckTokenPass: short confirmation first",
    "CheckTokenPass: telegrams in a poll in which the slot has expired",
    "AwaitStatusResponse: timeout",
    "AwaitStatusResponse: unexpected telegram",
    "AwaitStatusResponse: status other than Ok",
    "activity unknown before the poll",
    "pending bytes grew and no more is asked",
    "pending bytes grew where the token was lost",
    "pending bytes grew where the slot had expired",
    "fewer pending bytes than known",
    "telegrams listed without pending bytes",
];

/// What happened in this poll of a station that is not offline. What happens in PassiveIdle is told elsewhere.
pub fn events(poll: &Poll) -> Vec<&'static str> {
    let mut met = Vec::new();
    let (was, record) = (&poll.was, &poll.record);
    let mut when = |condition: bool, event: &'static str| {
        if condition {
            met.push(event);
        }
    };
    when(was.last_bus_activity.is_none(), "activity unknown before the poll");
    when(record.pending < was.pending_bytes as u16, "fewer pending bytes than known");
    when(!record.telegrams.is_empty() && record.pending == 0, "telegrams listed without pending bytes");
    if let (Some(waited), true) = (poll.waited(), record.pending > was.pending_bytes as u16) {
        let lost = waited >= poll.parameters.token_lost_timeout().total_micros() as i64;
        let expired = waited >= poll.parameters.slot_time().total_micros() as i64;
        when(true, "pending bytes grew and no more is asked");
        let listens = [LISTEN_TOKEN, ACTIVE_IDLE].contains(&poll.handled_in());
        when(listens && lost, "pending bytes grew where the token was lost");
        let waits = [AWAIT_DATA_RESPONSE, CHECK_TOKEN_PASS, AWAIT_STATUS_RESPONSE].contains(&was.state);
        when(waits && expired, "pending bytes grew where the slot had expired");
    }
    if poll.answer.outcome == 2 && poll.answer.sent == Sent::Nothing {
        return met;
    }
    match poll.handled_in() {
        LISTEN_TOKEN => listen_token(poll, &mut when),
        ACTIVE_IDLE => active_idle(poll, &mut when),
        USE_TOKEN => use_token(poll, &mut when),
        AWAIT_DATA_RESPONSE => await_data_response(poll, &mut when),
        PASS_TOKEN => pass_token(poll, &mut when),
        CHECK_TOKEN_PASS => check_token_pass(poll, &mut when),
        AWAIT_STATUS_RESPONSE => await_status_response(poll, &mut when),
        _ => {}
    }
    met
}

/// Notes an event where a condition holds.
type When<'a> = &'a mut dyn FnMut(bool, &'static str);

fn claims(poll: &Poll, when: When) {
    when(poll.ready, "claims, ready before");
    when(!poll.ready, "claims, not ready before");
}

/// Telegrams are listed while a request waits for its pause.
fn gone(poll: &Poll, when: When) {
    when(!poll.record.telegrams.is_empty(), "telegrams are gone while a request waits for its pause");
}

pub fn is_request_to(telegram: &Telegram, own: u8) -> bool {
    matches!(telegram, Telegram::Request { status_request: true, destination, .. } if *destination == own)
}

fn listen_token(poll: &Poll, when: When) {
    let (was, is, telegrams) = (&poll.was, &poll.is, &poll.record.telegrams);
    match poll.answer.sent {
        Sent::Token { .. } => {
            claims(poll, when);
            return when(was.state == OFFLINE, "Offline: claims in the poll that starts listening");
        }
        Sent::StatusResponse { response_type, .. } => {
            when(response_type != 1, "ListenToken: answers without token");
            when(response_type == 1 && is.state == LISTEN_TOKEN, "ListenToken: answers not ready, stays");
            return when(
                response_type == 1 && is.state == ACTIVE_IDLE,
                "ListenToken: answers not ready, goes to ActiveIdle",
            );
        }
        _ if poll.request().is_some() => return gone(poll, when),
        _ if poll.answer.consumed == 0 => return,
        _ => {}
    }
    if is.state == OFFLINE {
        let by_own: Vec<usize> = (0..telegrams.len()).filter(|i| telegrams[*i].source() == Some(poll.own)).collect();
        let second = by_own[1 - usize::from(was.collision_count)];
        when(second + 1 == telegrams.len(), "ListenToken: second collision, last telegram");
        when(second + 1 < telegrams.len(), "ListenToken: second collision, a telegram more");
        let after_another = second > 0 && !by_own.contains(&(second - 1));
        when(after_another, "ListenToken: second collision after another's telegram");
        return when(was.state == OFFLINE, "Offline: two collisions in the poll that starts listening");
    }
    when(was.collision_count == 0 && is.collision_count == 1, "ListenToken: first collision");
    when(is.status_request.is_some(), "ListenToken: request noted");
    let mut earlier = telegrams[..telegrams.len() - 1].iter();
    let missed = earlier.any(|t| is_request_to(t, poll.own) && t.source() != Some(poll.own));
    when(missed, "ListenToken: request that is not last is not noted");
}

fn active_idle(poll: &Poll, when: When) {
    let (was, is, own) = (&poll.was, &poll.is, poll.own);
    match poll.answer.sent {
        Sent::Token { .. } => return claims(poll, when),
        Sent::Nothing if was.status_request.is_some() => return gone(poll, when),
        Sent::Nothing if poll.answer.consumed > 0 => {}
        _ => return,
    }
    if is.state == LISTEN_TOKEN {
        return when(true, "ActiveIdle: second collision");
    }
    when(is.collision_count == 1, "ActiveIdle: first collision");
    let token_of = |telegram: &Telegram| match *telegram {
        Telegram::Token { destination, source } => Some((source, destination)),
        _ => None,
    };
    let telegrams = &poll.record.telegrams;
    // another's token after one by our address
    let mut by_own = was.collision_count > 0;
    for (source, _) in telegrams.iter().filter_map(token_of) {
        if by_own && source != own {
            when(true, "ActiveIdle: collisions counted anew after another's token");
            break;
        }
        by_own = by_own || source == own;
    }
    let (last, earlier) = telegrams.split_last().expect("a telegram");
    let to_us = |(source, destination): (u8, u8)| source != own && destination == own;
    when(earlier.iter().filter_map(token_of).any(to_us), "ActiveIdle: token to us is not the last telegram");
    when(earlier.iter().any(|t| is_request_to(t, own)), "ActiveIdle: request that is not last is not noted");
    when(is.status_request.is_some(), "ActiveIdle: request noted");
    when(is.status_request == Some(own), "ActiveIdle: request of our own address noted");
    let source = match token_of(last) {
        Some(token) if to_us(token) => token.0,
        _ => return,
    };
    let (accepted, remembered) = (is.state == USE_TOKEN, was.new_previous_station == Some(source));
    when(accepted && remembered, "ActiveIdle: token of the remembered station accepted");
    when(accepted && remembered && source > 125, "ActiveIdle: token of 126 or 127 accepted");
    when(accepted && !remembered, "ActiveIdle: token of the previous station accepted");
    when(!accepted && was.new_previous_station.is_some(), "ActiveIdle: another stranger remembered");
    when(!accepted && was.new_previous_station.is_none(), "ActiveIdle: stranger remembered");
}

fn use_token(poll: &Poll, when: When) {
    let (was, is) = (&poll.was, &poll.is);
    let new_token = was.token_time != Some(was.last_token_time);
    when(new_token && was.gap_poll.is_some(), "UseToken: gap time taken off the hold time");
    let (end, counted_from) = (is.end_token_hold_time, was.last_token_time);
    when(new_token && end == counted_from, "UseToken: end of hold at the token time that it is counted from");
    // out of reach since document 02's 25, and so not among the events that are named
    when(new_token && end < counted_from, "UseToken: end of hold before the token time that it is counted from");
    if let Sent::Application { application, high, .. } = poll.answer.sent {
        when(high, "UseToken: an application sends at high priority");
        when(!high, "UseToken: an application sends at normal priority");
        when(usize::from(application) != was.next_application, "UseToken: one declines, a later one sends");
    } else if is.state == PASS_TOKEN {
        let held = (poll.record.clock as i64) < is.end_token_hold_time.total_micros();
        when(held, "UseToken: all decline at normal priority");
        when(!held && !was.first_cycle_done, "UseToken: all decline at high priority");
        when(!held && was.first_cycle_done, "UseToken: hold time over, a cycle done");
        let begun = was.first_app.map_or(false, |first| first != was.next_application);
        when(held && begun, "UseToken: a decline completes the cycle before all are asked");
    }
}

fn await_data_response(poll: &Poll, when: When) {
    let was = &poll.was;
    if poll.answer.consumed > 0 {
        let first = poll.record.telegrams[0];
        let reply = matches!(poll.answer.notice, Notice::Reply { .. });
        let short = first == Telegram::ShortConfirmation;
        when(reply && short, "AwaitDataResponse: reply by a short confirmation");
        when(reply && !short, "AwaitDataResponse: reply by a response");
        if let Telegram::Response { destination, source, .. } = first {
            let (awaited, to_us) = (Some(source) == was.awaited, destination == poll.own);
            when(!reply && !awaited && to_us, "AwaitDataResponse: response of another station");
            when(!reply && awaited && !to_us, "AwaitDataResponse: response to another station");
        } else {
            when(!reply, "AwaitDataResponse: token or request");
        }
    } else if matches!(poll.answer.notice, Notice::Timeout { .. }) {
        if let Sent::Application { application, .. } = poll.answer.sent {
            let same = usize::from(application) == was.next_application;
            when(same, "AwaitDataResponse: timeout, the same application sends");
            when(!same, "AwaitDataResponse: timeout, another application sends");
        } else {
            when(true, "AwaitDataResponse: timeout, nothing sent");
            let over = poll.record.clock as i64 >= poll.is.end_token_hold_time.total_micros();
            when(over, "AwaitDataResponse: timeout, hold time over");
        }
    }
}

fn pass_token(poll: &Poll, when: When) {
    let (was, is) = (&poll.was, &poll.is);
    match poll.answer.sent {
        Sent::StatusRequest { destination } => {
            when(true, "PassToken: gap question");
            when(destination == 0, "PassToken: gap question to 0");
            let waited = was.gap_poll.is_none() && was.gap_count > poll.parameters.gap_wait_rotations;
            when(waited, "PassToken: waiting is over");
        }
        Sent::Token { .. } => {
            let counted = was.gap_poll.is_none() && is.gap_count == was.gap_count + 1;
            when(was.do_gap && counted, "PassToken: waiting is counted");
            when(was.do_gap && was.gap_poll.is_some() && is.gap_poll.is_none(), "PassToken: the walk ends");
            when(is.state == USE_TOKEN, "PassToken: alone");
            when(is.state == CHECK_TOKEN_PASS, "PassToken: to another");
        }
        _ => {}
    }
}

fn check_token_pass(poll: &Poll, when: When) {
    let (is, telegrams) = (&poll.is, &poll.record.telegrams);
    if let Sent::Token { .. } = poll.answer.sent {
        when(!telegrams.is_empty(), "CheckTokenPass: telegrams in a poll in which the slot has expired");
        return when(
            true,
            match (poll.size_after < poll.size, is.state, poll.was.attempt) {
                (false, _, 1) => "CheckTokenPass: second attempt",
                (false, _, _) => "CheckTokenPass: third attempt",
                (true, USE_TOKEN, _) => "CheckTokenPass: taken out, alone",
                (true, ..) => "CheckTokenPass: taken out, next neighbour",
            },
        );
    }
    if poll.answer.consumed == 0 {
        return;
    }
    let source = telegrams[0].source();
    when(source.is_none(), "CheckTokenPass: short confirmation first");
    let next = |source: u8| poll.next == Next::Station(source);
    when(source.map_or(false, next), "CheckTokenPass: next station heard first");
    when(source.map_or(false, |source| !next(source)), "CheckTokenPass: another station heard first");
    when(is.state == LISTEN_TOKEN, "CheckTokenPass: second collision");
    when(is.state == USE_TOKEN, "CheckTokenPass: token accepted");
    when(is.state == ACTIVE_IDLE && is.status_request.is_some(), "CheckTokenPass: request noted");
}

fn await_status_response(poll: &Poll, when: When) {
    when(matches!(poll.answer.sent, Sent::Token { .. }), "AwaitStatusResponse: timeout");
    when(poll.answer.consumed > 0 && poll.is.state == ACTIVE_IDLE, "AwaitStatusResponse: unexpected telegram");
    when(poll.gap_reply().map_or(false, |(_, ok)| !ok), "AwaitStatusResponse: status other than Ok");
}
