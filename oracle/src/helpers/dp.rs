//! The list of peripherals that `build_verified` asks for their max Tsdr. The rest of profirust's
//! DP master is not taken.

pub struct Options {
    pub max_tsdr: u16,
}

pub struct Peripheral(pub Options);

impl Peripheral {
    pub fn options(&self) -> &Options {
        &self.0
    }

    pub fn address(&self) -> u8 {
        0
    }
}

pub struct DpMaster(pub Vec<Peripheral>);

impl DpMaster {
    pub fn iter(&self) -> impl Iterator<Item = (usize, &Peripheral)> {
        self.0.iter().enumerate()
    }
}
