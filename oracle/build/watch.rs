// From here on not profirust's: what the oracle reads off a station. Nothing below is called by the text
// above, and nothing below changes a station but `poll_done`, which is `poll_multi` with its result kept.

/// What a generator and a reader may know of a station.
#[derive(Debug, Clone, Copy, PartialEq, Eq)]
pub struct Watched {
    /// The number of the state.
    pub state: u8,
    /// What the last command or a second collision left: neither is offline.
    pub online: bool,
    pub passive: bool,
    pub last_bus_activity: Option<crate::time::Instant>,
    pub pending_bytes: usize,
    pub last_token_time: crate::time::Instant,
    pub end_token_hold_time: crate::time::Instant,
    /// The address that is polled next in the gap walk; `None` while waiting.
    pub gap_poll: Option<crate::Address>,
    /// Rotations counted while waiting.
    pub gap_count: u8,
    /// The request that waits for an answer.
    pub status_request: Option<crate::Address>,
    pub new_previous_station: Option<crate::Address>,
    pub collision_count: u8,
    /// The address from which a reply is awaited.
    pub awaited: Option<crate::Address>,
    /// The attempt at passing the token, 1 to 3; 0 in other states.
    pub attempt: u8,
    pub do_gap: bool,
    /// The time of the token held, in UseToken and AwaitDataResponse.
    pub token_time: Option<crate::time::Instant>,
    pub first_cycle_done: bool,
    /// The application that declined first since the token came.
    pub first_app: Option<usize>,
    pub next_application: usize,
}

impl Watched {
    /// Offline by command, by a second collision, or since the start.
    pub fn offline(&self) -> bool {
        !self.online && !self.passive
    }

    /// The state in which the next poll is handled, after the move that a command asked for.
    pub fn handled_in(&self) -> u8 {
        match self.state {
            0..=2 if self.passive => 9,
            0 | 9 if self.online => 1,
            state => state,
        }
    }
}

impl FdlActiveStation {
    /// `poll_multi`, with document 01's number of the outcome.
    pub fn poll_done<PHY: ProfibusPhy>(
        &mut self,
        now: crate::time::Instant,
        phy: &mut PHY,
        apps: &mut [&mut dyn FdlApplication],
    ) -> u8 {
        self.poll_inner(now, phy, apps).0
    }

    /// Document 01's number of the state: "Offline, ListenToken, ActiveIdle, UseToken, ClaimToken,
    /// AwaitDataResponse, PassToken, CheckTokenPass, AwaitStatusResponse"; document 02: "PassiveIdle (state 9 ..".
    pub fn state_number(&self) -> u8 {
        match self.state {
            State::Offline => 0,
            State::ListenToken { .. } => 1,
            State::ActiveIdle { .. } => 2,
            State::UseToken { .. } => 3,
            State::ClaimToken { .. } => 4,
            State::AwaitDataResponse { .. } => 5,
            State::PassToken { .. } => 6,
            State::CheckTokenPass { .. } => 7,
            State::AwaitStatusResponse { .. } => 8,
            State::PassiveIdle { .. } => 9,
        }
    }

    pub fn next_application(&self) -> usize {
        self.next_application
    }

    /// Where the gap walk goes from this address; `None` is waiting.
    pub fn gap_walk_from(&self, address: crate::Address) -> Option<crate::Address> {
        match self.next_gap_poll(address) {
            GapState::DoPoll { current_address } => Some(current_address),
            GapState::Waiting { .. } => None,
        }
    }

    /// What a generator and a reader may know.
    pub fn watch(&self) -> Watched {
        let attempt_number = |attempt| match attempt {
            PassTokenAttempt::First => 1,
            PassTokenAttempt::Second => 2,
            PassTokenAttempt::Third => 3,
        };
        let mut w = Watched {
            state: self.state_number(),
            online: self.connectivity_state.is_online(),
            passive: self.connectivity_state.is_passive(),
            last_bus_activity: self.last_bus_activity,
            pending_bytes: self.pending_bytes,
            last_token_time: self.last_token_time,
            end_token_hold_time: self.end_token_hold_time,
            gap_poll: None,
            gap_count: 0,
            status_request: None,
            new_previous_station: None,
            collision_count: 0,
            awaited: None,
            attempt: 0,
            do_gap: false,
            token_time: None,
            first_cycle_done: false,
            first_app: None,
            next_application: self.next_application,
        };
        match self.gap_state {
            GapState::Waiting { rotation_count } => w.gap_count = rotation_count,
            GapState::DoPoll { current_address } => w.gap_poll = Some(current_address),
        }
        match self.state {
            State::Offline | State::ClaimToken { .. } => {}
            State::PassiveIdle { status_request } => w.status_request = status_request,
            State::ListenToken {
                status_request,
                collision_count,
            } => {
                w.status_request = status_request;
                w.collision_count = collision_count;
            }
            State::ActiveIdle {
                status_request,
                new_previous_station,
                collision_count,
            } => {
                w.status_request = status_request;
                w.new_previous_station = new_previous_station;
                w.collision_count = collision_count;
            }
            State::UseToken {
                data,
                first_cycle_done,
            } => {
                w.token_time = Some(data.token_time);
                w.first_app = data.first_app;
                w.first_cycle_done = first_cycle_done;
            }
            State::AwaitDataResponse { address, data } => {
                w.awaited = Some(address);
                w.token_time = Some(data.token_time);
                w.first_app = data.first_app;
            }
            State::PassToken { do_gap, attempt } => {
                w.do_gap = do_gap;
                w.attempt = attempt_number(attempt);
            }
            State::CheckTokenPass { attempt } => w.attempt = attempt_number(attempt),
            State::AwaitStatusResponse { address } => w.awaited = Some(address),
        }
        w
    }
}
