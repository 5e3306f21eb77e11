//! What is put into the published `active.rs`: document 01's rules in the place of the names that it lists as lacking, and
//! PassiveIdle by document 02, P10, where the published text stops. Each text of the published file must be found exactly
//! once, or the build fails.

/// One text of the published file and what stands in its place.
pub struct Replacement {
    /// The name on document 01's list, or the part of the published text that document 02 changes.
    pub name: &'static str,
    /// The text as published.
    pub published: &'static str,
    /// The documents' rule.
    pub ours: &'static str,
    /// Replaced with the feature `published_helpers` too: the published files at hand do not have it.
    pub always: bool,
}

/// The list. Everything else of `active.rs` stays as published.
pub const REPLACEMENTS: [Replacement; 24] = [
    // "TokenRing": `new` hands it the settings; ours takes the own address.
    Replacement {
        name: "TokenRing",
        published: "crate::fdl::TokenRing::new(&param)",
        ours: "crate::fdl::TokenRing::new(param.address)",
        always: true,
    },
    // "A fresh station: Offline, activity unknown, pending 0, token time 0, hold end 0, gap waiting 0,
    // application 0." The other fields of the published `new` are the same.
    Replacement {
        name: "new",
        published: "            gap_state: GapState::DoPoll {
                current_address: param.address,
            },
            state: State::Offline,
",
        ours: "            gap_state: GapState::Waiting { rotation_count: 0 },
            state: State::Offline,
",
        always: false,
    },
    // "It is polled exactly if it lies strictly between own and next going up (if alone: any but own);
    // else waiting, count 0."
    Replacement {
        name: "next_gap_poll",
        published: "        let next_station = self.token_ring.next_station();
        let next_address = if current_address == (self.p.highest_station_address - 1) {
            0
        } else {
            current_address + 1
        };

        if next_address >= next_station && next_station > self.p.address {
            // We have reached the end of the GAP, enter waiting state.
            GapState::Waiting { rotation_count: 0 }
        } else if next_address >= next_station
            && next_station < self.p.address
            && next_address < self.p.address
        {
            // We have reached the end of the GAP, enter waiting state (wrap-around GAP case).
            GapState::Waiting { rotation_count: 0 }
        } else {
            GapState::DoPoll {
                current_address: next_address,
            }
        }
",
        ours: "        let hsa = self.p.highest_station_address;
        match self.token_ring.gap_walk(current_address, hsa) {
            Some(current_address) => GapState::DoPoll { current_address },
            None => GapState::Waiting { rotation_count: 0 },
        }
",
        always: false,
    },
    // "Pause over: now - last activity >= time of 33 bits. .. asked with activity unknown sets it to
    // now first."
    Replacement {
        name: "wait_synchronization_pause",
        published: "        if now <= (*self.last_bus_activity.get_or_insert(now) + self.p.bits_to_time(33)) {
            Some(PollDone::waiting_for_delay())
        } else {
            None
        }
",
        ours: "        let last_bus_activity = *self.last_bus_activity.get_or_insert(now);
        if now - last_bus_activity >= self.p.bits_to_time(33) {
            None
        } else {
            Some(PollDone::waiting_for_delay())
        }
",
        always: false,
    },
    // "Slot expired: >= slot time." Document 01 has one rule, whatever is pending.
    Replacement {
        name: "check_slot_expired",
        published: "        // We have two situations:
        // 1. Either the slot expires without any repsonse activity at all
        // 2. Or we received some bytes, but not a full telegram
        let last_bus_activity = *self.last_bus_activity.get_or_insert(now);
        if self.pending_bytes == 0 {
            now > (last_bus_activity + self.p.slot_time())
        } else {
            // TODO: Technically, no inter-character delay is allowed at all but we are in a rough
            // spot here.  The peripheral will most likely continue transmitting data in a short
            // while so let's be conservative and wait an entire slot time again after partial
            // receival.
            //
            // The tricky part here is that this timeout also becomes very relevant on non-realtime
            // systems like a vanilla Linux where PROFIBUS communication happens over USB.  We can
            // have longer delays between consecutive characters there.  For example, sometimes
            // data is received in chunks of 32 bytes.  This obviously looks like a large
            // inter-character delay that we need to be robust against.
            now > (last_bus_activity + self.p.slot_time())
        }
",
        ours: "        let last_bus_activity = *self.last_bus_activity.get_or_insert(now);
        now - last_bus_activity >= self.p.slot_time()
",
        always: false,
    },
    // "Sending n bytes sets last activity to now + time of 11n bits."
    Replacement {
        name: "mark_tx",
        published: "        self.last_bus_activity = Some(
            now + self
                .p
                .baudrate
                .bits_to_time(11 * u32::try_from(bytes).unwrap()),
        );
        PollDone::waiting_for_transmission()
",
        ours: "        let bits = 11 * u32::try_from(bytes).unwrap();
        self.last_bus_activity = Some(now + self.p.bits_to_time(bits));
        PollDone::waiting_for_transmission()
",
        always: false,
    },
    // "Entering ActiveIdle clears request, predecessor and collisions." The published assertion on the
    // state before stays.
    Replacement {
        name: "transition_active_idle",
        published: "        *self = State::ActiveIdle {
            status_request: None,
            new_previous_station: None,
            collision_count: 0,
        };
",
        ours: "        *self = State::ActiveIdle {
            collision_count: 0,
            new_previous_station: None,
            status_request: None,
        };
",
        always: false,
    },
    // "A new token has no first application."
    Replacement {
        name: "with_token_time",
        published: "        Self {
            token_time,
            first_app: None,
        }
",
        ours: "        UseTokenData {
            first_app: None,
            token_time,
        }
",
        always: false,
    },
    // A step that is done ends the poll.
    Replacement {
        name: "return_if_done",
        published: "        match $expr {
            Some(e) => return e.into(),
            None => (),
        }
",
        ours: "        if let Some(done) = $expr {
            return done.into();
        }
",
        always: false,
    },
    // Whether the station is offline or online, as the last command or a second collision left it.
    Replacement {
        name: "connectivity_state",
        published: "    pub fn connectivity_state(&self) -> ConnectivityState {
        self.connectivity_state
    }
",
        ours: "    pub fn connectivity_state(&self) -> ConnectivityState {
        let state: ConnectivityState = self.connectivity_state;
        state
    }
",
        always: false,
    },
    // "Outcome: 0 none, 1 offline, 2 transmission, 3 bus, 4 delay." The published marker has no kinds.
    Replacement {
        name: "PollDone",
        published: "struct PollDone();
",
        ours: "struct PollDone(u8);
",
        always: true,
    },
    Replacement {
        name: "PollDone::waiting_for_transmission",
        published: "    pub fn waiting_for_transmission() -> Self {
        PollDone()
    }
",
        ours: "    pub fn waiting_for_transmission() -> Self {
        PollDone(2)
    }
",
        always: true,
    },
    Replacement {
        name: "PollDone::waiting_for_bus",
        published: "    pub fn waiting_for_bus() -> Self {
        PollDone()
    }
",
        ours: "    pub fn waiting_for_bus() -> Self {
        PollDone(3)
    }
",
        always: true,
    },
    Replacement {
        name: "PollDone::waiting_for_delay",
        published: "    pub fn waiting_for_delay() -> Self {
        PollDone()
    }
",
        ours: "    pub fn waiting_for_delay() -> Self {
        PollDone(4)
    }
",
        always: true,
    },
    Replacement {
        name: "PollDone::offline",
        published: "    pub fn offline() -> Self {
        PollDone()
    }
",
        ours: "    pub fn offline() -> Self {
        PollDone(1)
    }
",
        always: true,
    },
    // What is put at the end of the file: PassiveIdle's own step, and what the oracle reads off a station. The texts are
    // passive.rs and watch.rs beside this one.
    Replacement {
        name: "the end of the file",
        published: "            s => todo!(\"Active station state {s:?} not implemented yet!\"),
        }
    }
}
",
        ours: concat!(
            "            s => todo!(\"Active station state {s:?} not implemented yet!\"),
        }
    }
}

",
            include_str!("passive.rs"),
            "\n",
            include_str!("watch.rs")
        ),
        always: true,
    },
    // From here on document 02, P10. Where the published text has a rule for passive it stays as it is: which states become
    // PassiveIdle, that the others go on, that online leads from PassiveIdle to ListenToken, and that both come first in a poll.
    //
    // "Passive is accepted." The published text notes the wish and stops.
    Replacement {
        name: "set_state",
        published: "            *self = Self::new(parameters);
        } else if state != ConnectivityState::Online {
            todo!(
                \"ConnectivityState {:?} is not yet supported properly!\",
                state
            );
        }
",
        ours: "            *self = Self::new(parameters);
        }
",
        always: false,
    },
    // "PassiveIdle (state 9, no request pending)": the state gets a place for the request, empty on entering. The two places
    // of poll_inner that name the state without a field follow.
    Replacement {
        name: "PassiveIdle",
        published: "    Offline,
    PassiveIdle,
    ListenToken {
",
        ours: "    Offline,
    PassiveIdle {
        status_request: Option<crate::Address>,
    },
    ListenToken {
",
        always: true,
    },
    Replacement {
        name: "PassiveIdle::entered",
        published: "        *self = State::PassiveIdle;
",
        ours: "        *self = State::PassiveIdle {
            status_request: None,
        };
",
        always: true,
    },
    Replacement {
        name: "PassiveIdle::stays",
        published: "                    State::PassiveIdle => (),
",
        ours: "                    State::PassiveIdle { .. } => (),
",
        always: true,
    },
    Replacement {
        name: "PassiveIdle::left",
        published: "if matches!(self.state, State::Offline | State::PassiveIdle) {
",
        ours: "if matches!(self.state, State::Offline | State::PassiveIdle { .. }) {
",
        always: true,
    },
    // "Offline, ListenToken and ActiveIdle become PassiveIdle .. at the next poll": so says poll_inner, and the assertion of
    // the transition has Offline alone.
    Replacement {
        name: "transition_passive_idle",
        published: "        debug_assert_state!(self, State::Offline { .. } | State::PassiveIdle { .. });
",
        ours: "        debug_assert_state!(
            self,
            State::Offline { .. }
                | State::PassiveIdle { .. }
                | State::ListenToken { .. }
                | State::ActiveIdle { .. }
        );
",
        always: false,
    },
    // "Online from there goes to ListenToken": so says poll_inner, and the assertion of the transition lacks PassiveIdle.
    Replacement {
        name: "transition_listen_token",
        published: "            State::ListenToken { .. } | State::Offline { .. } | State::ActiveIdle { .. }
",
        ours: "            State::ListenToken { .. }
                | State::Offline { .. }
                | State::ActiveIdle { .. }
                | State::PassiveIdle { .. }
",
        always: false,
    },
    // The step of PassiveIdle, where the published text stops: passive.rs.
    Replacement {
        name: "poll_inner",
        published: "            s => todo!(\"Active station state {s:?} not implemented yet!\"),
",
        ours: "            State::PassiveIdle { .. } => self.do_passive_idle(now, phy).into(),
",
        always: false,
    },
];

/// The text with the one place where `old` stands changed to `new`, or how often `old` stands in it.
pub fn replace_once(text: &str, old: &str, new: &str) -> Result<String, usize> {
    match text.matches(old).count() {
        1 => Ok(text.replacen(old, new, 1)),
        count => Err(count),
    }
}

/// The published `active.rs` with the documents' rules in it; with `published_helpers` only what the
/// published files lack is put in, and passive stops where it does in them.
pub fn station_text(published: &str, published_helpers: bool) -> Result<String, String> {
    let mut text = published.to_string();
    for r in &REPLACEMENTS {
        let ours = if r.always || !published_helpers { r.ours } else { r.published };
        text = replace_once(&text, r.published, ours).map_err(|count| {
            format!("'{}': its text stands {} times in the published active.rs, not once", r.name, count)
        })?;
    }
    Ok(text)
}
