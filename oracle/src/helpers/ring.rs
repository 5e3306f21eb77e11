//! Document 01, "Ring (ours)", word by word, and document 02 (P5) for who is next, over a plain set whose addresses are
//! walked one by one. The names are those that the published station calls, and `next`, which it does not call.

pub type Address = u8;

/// The highest address: "125 followed by 0".
pub const LAST: Address = 125;

/// "A set of addresses 0..125, own always in it; laps; ready."
#[derive(Debug, Clone, PartialEq, Eq)]
pub struct TokenRing {
    own: Address,
    /// For each address whether it is in the set.
    members: [bool; LAST as usize + 1],
    laps: u8,
    ready: bool,
}

/// What the ring answers when it is asked for the next station.
#[derive(Debug, Clone, Copy, PartialEq, Eq)]
pub enum Next {
    Nobody,
    Station(Address),
}

impl Next {
    /// What an answer carries: the address; for nobody, "the answer record carries 127".
    pub fn number(&self) -> u8 {
        match *self {
            Next::Nobody => 127,
            Next::Station(address) => address,
        }
    }
}

/// The address after this one, going up.
fn up(address: Address) -> Address {
    if address == LAST {
        0
    } else {
        address + 1
    }
}

/// The address after this one, going down.
fn down(address: Address) -> Address {
    if address == 0 {
        LAST
    } else {
        address - 1
    }
}

/// The addresses strictly between `from` and `to` going up; none if they are the same.
fn strictly_between(from: Address, to: Address) -> Vec<Address> {
    let mut met = Vec::new();
    if from != to {
        let mut address = up(from);
        while address != to {
            met.push(address);
            address = up(address);
        }
    }
    met
}

impl TokenRing {
    /// "Fresh: own only, 0, no." An own address above 125 is refused long before (refusal 1).
    pub fn new(own: Address) -> Self {
        assert!(own <= LAST, "own address {} is above {}", own, LAST);
        let mut ring = TokenRing { own, members: [false; LAST as usize + 1], laps: 0, ready: false };
        ring.members[own as usize] = true;
        ring
    }

    /// "Next: first member going up from own, 125 followed by 0"; document 02: "The ring's question for the next station
    /// is to answer "nobody" when we are alone."
    pub fn next(&self) -> Next {
        let mut address = up(self.own);
        while address != self.own {
            if self.members[address as usize] {
                return Next::Station(address);
            }
            address = up(address);
        }
        Next::Nobody
    }

    /// What the published station asks for: the address that its token goes to. "The pass still sends the token to us."
    pub fn next_station(&self) -> Address {
        match self.next() {
            Next::Nobody => self.own,
            Next::Station(address) => address,
        }
    }

    /// "Previous: the same going down." Document 02 leaves it: own if alone.
    pub fn previous_station(&self) -> Address {
        let mut address = down(self.own);
        while address != self.own && !self.members[address as usize] {
            address = down(address);
        }
        address
    }

    /// "Witness s→d: nothing if either is above 125. Else add s and d, take out every member but own
    /// strictly between s and d going up (none if s = d). If the set changed, laps = 0. Then if
    /// d ≤ s, laps rises by one, at most to 2. At 2, ready is set and stays."
    pub fn witness_token_pass(&mut self, source: Address, destination: Address) {
        if source > LAST || destination > LAST {
            return;
        }
        let before = self.members;
        self.members[source as usize] = true;
        self.members[destination as usize] = true;
        for address in strictly_between(source, destination) {
            if address != self.own {
                self.members[address as usize] = false;
            }
        }
        if self.members != before {
            self.laps = 0;
        }
        if destination <= source {
            self.laps = std::cmp::min(self.laps + 1, 2);
        }
        if self.laps == 2 {
            self.ready = true;
        }
    }

    /// "Claim sets ready."
    pub fn claim_token(&mut self) {
        self.ready = true;
    }

    /// "Set-next adds." The set is one of addresses 0..125, so a number above adds nothing.
    pub fn set_next_station(&mut self, address: Address) {
        if address <= LAST {
            self.members[address as usize] = true;
        }
    }

    /// "Remove takes out any but own."
    pub fn remove_station(&mut self, address: Address) {
        if address != self.own && address <= LAST {
            self.members[address as usize] = false;
        }
    }

    pub fn ready_for_ring(&self) -> bool {
        self.ready
    }

    pub fn laps(&self) -> u8 {
        self.laps
    }

    pub fn size(&self) -> usize {
        self.members.iter().filter(|member| **member).count()
    }

    /// "Gap walk from a: candidate a + 1, or 0 if that is ≥ HSA. It is polled exactly if it lies
    /// strictly between own and next going up (if alone: any but own); else waiting, count 0." Document
    /// 02: "the gap walk still covers all other addresses". `Some` is the polled address, `None` waiting
    /// with count 0.
    pub fn gap_walk(&self, from: Address, highest_station_address: Address) -> Option<Address> {
        let candidate = match from.checked_add(1) {
            Some(above) if above < highest_station_address => above,
            _ => 0,
        };
        let polled = match self.next() {
            Next::Nobody => candidate != self.own,
            Next::Station(next) => strictly_between(self.own, next).contains(&candidate),
        };
        polled.then_some(candidate)
    }
}

#[cfg(test)]
mod tests {
    use super::*;

    fn ring(own: Address, others: &[Address]) -> TokenRing {
        let mut ring = TokenRing::new(own);
        others.iter().for_each(|address| ring.set_next_station(*address));
        ring
    }

    fn listed(ring: &TokenRing) -> Vec<Address> {
        (0..=LAST).filter(|address| ring.members[*address as usize]).collect()
    }

    #[test]
    fn next_and_previous_pass_125_to_0() {
        for (own, others, next, previous) in
            [(125, &[3, 9][..], 3, 9), (0, &[125], 125, 125), (125, &[0], 0, 0), (5, &[9, 2], 9, 2)]
        {
            let ring = ring(own, others);
            assert_eq!((ring.next(), ring.previous_station()), (Next::Station(next), previous));
            assert_eq!((ring.next().number(), ring.next_station()), (next, next));
        }
    }

    /// Document 02, P5: fresh, and again after the last of the others is taken out.
    #[test]
    fn alone_there_is_nobody_and_the_token_goes_to_us() {
        for own in [0, 5, 125] {
            let mut ring = ring(own, &[]);
            for other in [3, 124] {
                assert_eq!((ring.next(), ring.next().number()), (Next::Nobody, 127));
                assert_eq!((ring.next_station(), ring.previous_station()), (own, own));
                ring.set_next_station(other);
                assert_eq!((ring.next(), ring.next_station()), (Next::Station(other), other));
                ring.remove_station(other);
            }
            let asked: Vec<Option<Address>> = (0..=LAST).map(|from| ring.gap_walk(from, 126)).collect();
            assert_eq!(asked.iter().flatten().count(), usize::from(LAST), "all but own are asked");
            assert!(!asked.contains(&Some(own)));
        }
    }

    #[test]
    fn a_pass_takes_out_those_it_jumps_but_never_own() {
        let mut ring = ring(5, &[4, 6, 9]);
        for (source, destination, left) in
            [(3, 9, &[3, 5, 9][..]), (120, 2, &[2, 3, 5, 9, 120]), (9, 3, &[3, 5, 9]), (3, 3, &[3, 5, 9])]
        {
            ring.witness_token_pass(source, destination);
            assert_eq!(listed(&ring), left);
        }
    }

    #[test]
    fn one_pass_can_reset_laps_and_raise_them() {
        let mut ring = TokenRing::new(5);
        for (source, destination, laps, ready) in
            [(9, 9, 1, false), (9, 9, 2, true), (9, 9, 2, true), (9, 10, 0, true), (10, 9, 1, true), (10, 8, 1, true)]
        {
            ring.witness_token_pass(source, destination);
            assert_eq!((ring.laps, ring.ready), (laps, ready), "{} to {}", source, destination);
        }
    }

    #[test]
    fn above_125_nothing_happens() {
        let mut ring = TokenRing::new(5);
        for high in [126, 127, 200, 255] {
            ring.witness_token_pass(high, 3);
            ring.witness_token_pass(3, high);
            ring.set_next_station(high);
            ring.remove_station(high);
        }
        assert_eq!(ring, TokenRing::new(5));
    }

    #[test]
    fn claim_set_next_and_remove_leave_laps() {
        let mut ring = ring(5, &[9]);
        ring.witness_token_pass(9, 5);
        ring.claim_token();
        ring.set_next_station(7);
        ring.remove_station(7);
        ring.remove_station(5);
        assert_eq!((ring.laps, ring.ready, listed(&ring)), (1, true, vec![5, 9]));
    }

    /// Document 01's example 8, then gaps that end at the next station.
    #[test]
    fn the_gap_walk() {
        for (own, others, from, hsa, polled) in [
            (5, &[][..], 5, 126, Some(6)),
            (5, &[], 125, 126, Some(0)),
            (5, &[], 4, 126, None),
            (5, &[9, 2], 7, 126, Some(8)),
            (5, &[9, 2], 8, 126, None),
            (5, &[9, 2], 5, 6, None),
            (100, &[3], 109, 110, Some(0)),
            (100, &[3], 255, 110, Some(0)),
            (100, &[3], 1, 110, Some(2)),
            (100, &[3], 2, 110, None),
        ] {
            assert_eq!(ring(own, others).gap_walk(from, hsa), polled, "own {}, from {}", own, from);
        }
    }
}
