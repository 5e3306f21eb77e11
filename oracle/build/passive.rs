// From here on not profirust's: PassiveIdle, document 02, P10, whose words stand in quotation marks. The published text knows
// the state and stops in it with `todo!`. What poll_inner does before it asks for the state is as published: the move to
// PassiveIdle and away from it, then the transmission, then the pending bytes.

impl State {
    fn get_passive_idle_status_request(&mut self) -> &mut Option<crate::Address> {
        match self {
            Self::PassiveIdle { status_request } => status_request,
            _ => unreachable!(),
        }
    }
}

impl FdlActiveStation {
    /// "It neither claims nor passes": the lost token is not asked for, and nothing is sent but the answer to a request. So a
    /// poll without a telegram and without a request asks for no time and leaves an unknown activity unknown.
    fn do_passive_idle<PHY: ProfibusPhy>(&mut self, now: crate::time::Instant, phy: &mut PHY) -> PollDone {
        debug_assert_state!(self.state, State::PassiveIdle { .. });

        // "A status request to us that is last of its poll is answered after the pause with type slave", ready or not. Until
        // then no telegram is consumed, as in ListenToken.
        if let Some(asking) = *self.state.get_passive_idle_status_request() {
            return_if_done!(self.wait_synchronization_pause(now));
            let slave = crate::fdl::ResponseState::Slave;
            let ok = crate::fdl::ResponseStatus::Ok;
            let answered = phy
                .transmit_telegram(now, |tx| Some(tx.send_fdl_status_response(asking, self.p.address, slave, ok)))
                .unwrap();
            *self.state.get_passive_idle_status_request() = None;
            return self.mark_tx(now, answered.bytes_sent());
        }

        // "PassiveIdle consumes telegrams and witnesses tokens as ListenToken does."
        let heard = phy.receive_all_telegrams(now, |telegram, last| {
            self.mark_rx(now);
            self.hear_in_passive_idle(&telegram, last)
        });
        heard.unwrap_or(PollDone::waiting_for_bus())
    }

    /// One telegram that PassiveIdle has consumed and marked.
    fn hear_in_passive_idle(&mut self, telegram: &crate::fdl::Telegram, last: bool) -> PollDone {
        // "its own address as source changes nothing": no token is witnessed, no request noted, no collision counted.
        let own = Some(self.p.address);
        if telegram.source_address() == own {
            return PollDone::waiting_for_bus();
        }
        match telegram {
            crate::fdl::Telegram::Token(token) => self.token_ring.witness_token_pass(token.sa, token.da),
            crate::fdl::Telegram::Data(asked) => {
                let to_us = asked.h.da == self.p.address;
                if last && to_us && asked.is_fdl_status_request().is_some() {
                    *self.state.get_passive_idle_status_request() = Some(asked.h.sa);
                    return PollDone::waiting_for_delay();
                }
            }
            crate::fdl::Telegram::ShortConfirmation(_) => {}
        }
        PollDone::waiting_for_bus()
    }
}
